//! Records as arrays and arrays as records without a copy, where each number stands, and which numbers are finite.

use migthumo::{Matrix2, Matrix3, Matrix4, Vector2, Vector3, Vector4};
use std::mem::{align_of, offset_of, size_of};

/// Numbers that all differ, by their place.
fn counted<const N: usize>() -> [f64; N] {
    std::array::from_fn(|place| place as f64)
}

/// The layout of one order, and every view of its matrix and its vector.
macro_rules! views {
    ($name:ident, $Matrix:ident, $Vector:ident, $order:literal, [$($field:ident),+]) => {
        #[test]
        fn $name() {
            // A vector is its numbers and a matrix its columns, in a row and without a gap.
            assert_eq!((size_of::<$Vector>(), align_of::<$Vector>()), ($order * size_of::<f64>(), align_of::<f64>()));
            assert_eq!((size_of::<$Matrix>(), align_of::<$Matrix>()), ($order * size_of::<$Vector>(), align_of::<f64>()));
            let number = [$(offset_of!($Vector, $field)),+];
            let column = [$(offset_of!($Matrix, $field)),+];
            for place in 0..$order {
                assert_eq!(number[place], place * size_of::<f64>());
                assert_eq!(column[place], place * size_of::<$Vector>());
            }

            let flat = counted::<{ $order * $order }>();
            let columns: [[f64; $order]; $order] = std::array::from_fn(|c| std::array::from_fn(|r| flat[c * $order + r]));
            let mut m = $Matrix::from(columns);
            for (c, r) in (0..$order).flat_map(|c| (0..$order).map(move |r| (c, r))) {
                assert_eq!(m[c][r], flat[c * $order + r]);
            }

            // Lent.
            assert_eq!(AsRef::<[[f64; $order]; $order]>::as_ref(&m), &columns);
            assert_eq!(AsRef::<[f64; $order * $order]>::as_ref(&m), &flat);
            assert_eq!(<&$Matrix>::from(&columns), &m);
            assert_eq!(<&$Matrix>::from(&flat), &m);

            // They are where the matrix is.
            let start = m.as_ptr();
            assert_eq!(start, AsRef::<[f64; $order * $order]>::as_ref(&m).as_ptr());
            assert_eq!(start, AsRef::<[[f64; $order]; $order]>::as_ref(&m).as_ptr().cast());
            assert_eq!(start, m.x.as_ptr());
            assert_eq!(start, m.as_mut_ptr().cast_const());
            assert_eq!(<&$Matrix>::from(&flat).as_ptr(), flat.as_ptr());

            // Lent for change.
            let view: &mut [f64; $order * $order] = m.as_mut();
            view[$order] = 50.0;
            assert_eq!(m[1][0], 50.0);
            let view: &mut [[f64; $order]; $order] = m.as_mut();
            view[0][1] = 60.0;
            assert_eq!(m.x.y, 60.0);
            let (mut flat, mut columns) = (flat, columns);
            <&mut $Matrix>::from(&mut flat)[1][0] = 70.0;
            assert_eq!(flat[$order], 70.0);
            <&mut $Matrix>::from(&mut columns)[1][0] = 80.0;
            assert_eq!(columns[1][0], 80.0);
            <&mut $Matrix>::from(&mut flat).swap_columns(0, 1).unwrap();
            assert_eq!(flat[0], 70.0);

            // Vectors.
            let mut numbers = counted::<$order>();
            let mut v = $Vector::from(numbers);
            assert_eq!(AsRef::<[f64; $order]>::as_ref(&v), &numbers);
            assert_eq!(<&$Vector>::from(&numbers), &v);
            assert_eq!(v.as_ptr(), AsRef::<[f64; $order]>::as_ref(&v).as_ptr());
            assert_eq!(v.as_ptr(), v.as_mut_ptr().cast_const());
            let view: &mut [f64; $order] = v.as_mut();
            view[1] = 90.0;
            assert_eq!(v.y, 90.0);
            <&mut $Vector>::from(&mut numbers)[1] = 91.0;
            assert_eq!(numbers[1], 91.0);
        }
    };
}

views!(views_of_order_2, Matrix2, Vector2, 2, [x, y]);
views!(views_of_order_3, Matrix3, Vector3, 3, [x, y, z]);
views!(views_of_order_4, Matrix4, Vector4, 4, [x, y, z, w]);

/// One number that is not finite, at every place of a matrix and a vector of one order.
macro_rules! finite {
    ($name:ident, $Matrix:ident, $Vector:ident, $order:literal) => {
        #[test]
        fn $name() {
            let entries = [f64::MAX; $order * $order];
            assert!(<&$Matrix>::from(&entries).is_finite() && <&$Matrix>::from(&[-0.0; $order * $order]).is_finite());
            assert!($Vector::from([f64::MIN; $order]).is_finite());
            for other in [f64::NAN, f64::INFINITY, f64::NEG_INFINITY] {
                for place in 0..$order * $order {
                    let mut entries = entries;
                    entries[place] = other;
                    assert!(!<&$Matrix>::from(&entries).is_finite());
                }
                for place in 0..$order {
                    let mut v = $Vector::from([f64::MIN; $order]);
                    v[place] = other;
                    assert!(!v.is_finite());
                }
            }
        }
    };
}

finite!(finite_of_order_2, Matrix2, Vector2, 2);
finite!(finite_of_order_3, Matrix3, Vector3, 3);
finite!(finite_of_order_4, Matrix4, Vector4, 4);
