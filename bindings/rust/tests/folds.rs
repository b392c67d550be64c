//! Sums and products of iterators: from zero and from the identity, from the left, by value and lent.

use migthumo::{Matrix2, Matrix3, Matrix4};

/// The bits of every entry.
macro_rules! bits {
    ($m:expr, $order:literal) => {
        AsRef::<[f64; $order * $order]>::as_ref(&$m).map(f64::to_bits)
    };
}

/// Folds of one order against the operators written out.
macro_rules! folds {
    ($name:ident, $Matrix:ident, $order:literal) => {
        #[test]
        fn $name() {
            let matrix = |seed: usize| {
                $Matrix::from(std::array::from_fn::<_, $order, _>(|c| {
                    std::array::from_fn(|r| ((c * 7 + r * 3 + seed * 5) % 11) as f64 / 10.0 - 0.3)
                }))
            };
            let all: Vec<$Matrix> = (0..5).map(matrix).collect();
            let [a, b, c, d, e] = all[..] else { panic!("there are five") };

            let sum = (((($Matrix::zero() + a) + b) + c) + d) + e;
            assert_eq!(bits!(all.iter().sum::<$Matrix>(), $order), bits!(sum, $order));
            assert_eq!(bits!(all.iter().copied().sum::<$Matrix>(), $order), bits!(sum, $order));
            let product = (((($Matrix::identity() * a) * b) * c) * d) * e;
            assert_eq!(bits!(all.iter().product::<$Matrix>(), $order), bits!(product, $order));
            assert_eq!(bits!(all.iter().copied().product::<$Matrix>(), $order), bits!(product, $order));

            // Another grouping rounds otherwise, and another order is another product.
            assert_ne!(bits!(a + (b + (c + (d + e))), $order), bits!(sum, $order));
            assert_ne!(bits!((((e * d) * c) * b) * a, $order), bits!(product, $order));

            // None, and one: the zero that a sum starts from has its sign.
            let none: [$Matrix; 0] = [];
            assert_eq!(none.iter().sum::<$Matrix>(), $Matrix::zero());
            assert_eq!(none.iter().product::<$Matrix>(), $Matrix::identity());
            let negative = -$Matrix::zero();
            assert_eq!(bits!([negative].iter().sum::<$Matrix>(), $order), bits!($Matrix::zero(), $order));
            assert_eq!([a].into_iter().product::<$Matrix>(), a);
        }
    };
}

folds!(folds_of_order_2, Matrix2, 2);
folds!(folds_of_order_3, Matrix3, 3);
folds!(folds_of_order_4, Matrix4, 4);
