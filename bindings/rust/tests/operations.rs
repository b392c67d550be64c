//! Every operation at every order, against values worked out by hand or by one float operation for each entry.

use migthumo::{Matrix2, Matrix3, Matrix4, Vector2, Vector3, Vector4};

/// A matrix of order 2 whose entries all differ.
const TWO: Matrix2 = Matrix2::new(1.0, 2.0, 3.0, 4.0);
/// A matrix of order 3 whose entries all differ.
const THREE: Matrix3 = Matrix3::new(1.0, 2.0, 3.0, 4.0, 5.0, 6.0, 7.0, 8.0, 9.0);
/// A matrix of order 4 whose entries all differ.
const FOUR: Matrix4 =
    Matrix4::new(1.0, 2.0, 3.0, 4.0, 5.0, 6.0, 7.0, 8.0, 9.0, 10.0, 11.0, 12.0, 13.0, 14.0, 15.0, 16.0);

#[test]
fn products_of_order_2() {
    assert_eq!(TWO * Matrix2::new(5.0, 6.0, 7.0, 8.0), Matrix2::new(23.0, 34.0, 31.0, 46.0));
    assert_eq!(TWO * Vector2::new(5.0, 6.0), Vector2::new(23.0, 34.0));
}

#[test]
fn products_of_order_3() {
    let right = Matrix3::from([[1.0, 0.0, 2.0], [0.0, 1.0, 0.0], [3.0, 0.0, 1.0]]);
    assert_eq!(THREE * right, Matrix3::from([[15.0, 18.0, 21.0], [4.0, 5.0, 6.0], [10.0, 14.0, 18.0]]));
    assert_eq!(THREE * Vector3::new(1.0, 2.0, 3.0), Vector3::new(30.0, 36.0, 42.0));
}

#[test]
fn products_of_order_4() {
    let right = [[1.0, 0.0, 0.0, 2.0], [0.0, 1.0, 0.0, 0.0], [0.0, 3.0, 1.0, 0.0], [1.0, 1.0, 1.0, 1.0]];
    let product = [[27.0, 30.0, 33.0, 36.0], [5.0, 6.0, 7.0, 8.0], [24.0, 28.0, 32.0, 36.0], [28.0, 32.0, 36.0, 40.0]];
    assert_eq!(FOUR * Matrix4::from(right), Matrix4::from(product));
    assert_eq!(FOUR * Vector4::new(1.0, 2.0, 3.0, 4.0), Vector4::new(90.0, 100.0, 110.0, 120.0));
}

/// Sums, scalar forms and signs of one order: each entry is one float operation of Rust's own.
macro_rules! entry_by_entry {
    ($name:ident, $Matrix:ident, $order:literal, $left:expr) => {
        #[test]
        fn $name() {
            let m = $left;
            let n = $Matrix::from([[0.1; $order]; $order]);
            let entries = <[[f64; $order]; $order]>::from(m);
            let each = |f: fn(f64) -> f64| $Matrix::from(entries.map(|column| column.map(f)));
            assert_eq!(m + n, each(|entry| entry + 0.1));
            assert_eq!(m - n, each(|entry| entry - 0.1));
            assert_eq!(-m, each(|entry| -entry));
            assert_eq!(0.1 * m, each(|entry| 0.1 * entry));
            assert_eq!(m * 0.1, each(|entry| entry * 0.1));
            assert_eq!(0.1 / m, each(|entry| 0.1 / entry));
            assert_eq!(m / 0.1, each(|entry| entry / 0.1));
        }
    };
}

entry_by_entry!(sums_and_scalars_of_order_2, Matrix2, 2, TWO);
entry_by_entry!(sums_and_scalars_of_order_3, Matrix3, 3, THREE);
entry_by_entry!(sums_and_scalars_of_order_4, Matrix4, 4, FOUR);

/// Every operator of one order takes its sides by value and lent, with one answer.
macro_rules! by_value_and_lent {
    ($name:ident, $Matrix:ident, $Vector:ident, $order:literal, $left:expr) => {
        #[test]
        #[allow(clippy::op_ref)]
        fn $name() {
            let (m, n, v) = ($left, $Matrix::from_value(3.0), $Vector::from([2.0; $order]));
            let (sum, difference, product, moved) = (m + n, m - n, m * n, m * v);
            assert_eq!([&m + n, m + &n, &m + &n], [sum; 3]);
            assert_eq!([&m - n, m - &n, &m - &n], [difference; 3]);
            assert_eq!([&m * n, m * &n, &m * &n], [product; 3]);
            assert_eq!([&m * v, m * &v, &m * &v], [moved; 3]);
            assert_eq!((&m * 3.0, 3.0 * &m, &m / 3.0, 3.0 / &m), (m * 3.0, 3.0 * m, m / 3.0, 3.0 / m));
            assert_eq!(-&m, -m);
            let mut changed = m;
            changed += n;
            assert_eq!(changed, sum);
            changed -= n;
            assert_eq!(changed, m);
            changed *= 3.0;
            assert_eq!(changed, m * 3.0);
            changed /= 3.0;
            assert_eq!(changed, m);
        }
    };
}

by_value_and_lent!(operators_of_order_2, Matrix2, Vector2, 2, TWO);
by_value_and_lent!(operators_of_order_3, Matrix3, Vector3, 3, THREE);
by_value_and_lent!(operators_of_order_4, Matrix4, Vector4, 4, FOUR);

#[test]
fn determinants_and_inverses_of_order_2() {
    assert_eq!(TWO.determinant(), -2.0);
    assert_eq!(TWO.invert(), Ok(Matrix2::new(-2.0, 1.0, 1.5, -0.5)));
}

#[test]
fn determinants_and_inverses_of_order_3() {
    let m = Matrix3::from([[1.0, 2.0, 3.0], [0.0, 1.0, 4.0], [5.0, 6.0, 0.0]]);
    let inverse = Matrix3::from([[-24.0, 18.0, 5.0], [20.0, -15.0, -4.0], [-5.0, 4.0, 1.0]]);
    assert_eq!(m.determinant(), 1.0);
    assert_eq!(m.invert(), Ok(inverse));
    assert_eq!(m * inverse, Matrix3::identity());
    assert_eq!(THREE.determinant(), 0.0);
}

#[test]
fn determinants_and_inverses_of_order_4() {
    let m = Matrix4::from([[1.0, 0.0, 0.0, 0.0], [2.0, 1.0, 0.0, 0.0], [3.0, 4.0, 1.0, 0.0], [5.0, 6.0, 7.0, 1.0]]);
    let inverse = [[1.0, 0.0, 0.0, 0.0], [-2.0, 1.0, 0.0, 0.0], [5.0, -4.0, 1.0, 0.0], [-28.0, 22.0, -7.0, 1.0]];
    assert_eq!(m.determinant(), 1.0);
    assert_eq!(m.invert(), Ok(Matrix4::from(inverse)));
    assert_eq!(Matrix4::from(inverse) * m, Matrix4::identity());
}

#[test]
fn inverses_divide_or_multiply_as_the_rules_say() {
    let (second, third, fourth) = (21.0 / 441.0, 441.0 / 9261.0, 729.0 * (1.0 / 6561.0));
    assert_eq!(Matrix2::from_value(21.0).invert(), Ok(Matrix2::from_value(second)));
    assert_eq!(Matrix3::from_value(21.0).invert(), Ok(Matrix3::from_value(third)));
    assert_eq!(Matrix4::from_value(9.0).invert(), Ok(Matrix4::from_value(fourth)));
    let the_other_way = (21.0 * (1.0 / 441.0), 441.0 * (1.0 / 9261.0), 729.0 / 6561.0);
    assert!(second != the_other_way.0 && third != the_other_way.1 && fourth != the_other_way.2);
}

#[test]
fn signed_sums_and_verdicts() {
    let cycle = Matrix4::from([[0.0, 1.0, 0.0, 0.0], [0.0, 0.0, 1.0, 0.0], [0.0, 0.0, 0.0, 1.0], [2.0, 0.0, 0.0, 0.0]]);
    assert_eq!((TWO.signed_sum(), TWO.undoable()), (Ok(-2), Ok(true)));
    assert_eq!((THREE.signed_sum(), THREE.undoable()), (Ok(0), Ok(false)));
    assert_eq!((cycle.signed_sum(), cycle.undoable()), (Ok(-2), Ok(true)));
    let largest = Matrix4::from_value(1024.0);
    assert_eq!((largest.signed_sum(), largest.undoable()), (Ok(1 << 40), Ok(true)));
    assert_eq!(Matrix3::from_value(3.0).undoable(), Ok(false));
}

#[test]
fn transposes() {
    assert_eq!(TWO.transpose(), Matrix2::new(1.0, 3.0, 2.0, 4.0));
    assert_eq!(THREE.transpose(), Matrix3::from([[1.0, 4.0, 7.0], [2.0, 5.0, 8.0], [3.0, 6.0, 9.0]]));
    assert_eq!(FOUR.transpose().y, Vector4::new(2.0, 6.0, 10.0, 14.0));
    let mut turned = FOUR;
    turned.transpose_self();
    assert_eq!(turned, FOUR.transpose());
}

#[test]
fn rows_and_diagonals() {
    assert_eq!([TWO.row(0), TWO.row(1)], [Ok(Vector2::new(1.0, 3.0)), Ok(Vector2::new(2.0, 4.0))]);
    assert_eq!(THREE.row(2), Ok(Vector3::new(3.0, 6.0, 9.0)));
    assert_eq!(FOUR.row(3), Ok(Vector4::new(4.0, 8.0, 12.0, 16.0)));
    assert_eq!(TWO.diagonal(), Vector2::new(1.0, 4.0));
    assert_eq!(THREE.diagonal(), Vector3::new(1.0, 5.0, 9.0));
    assert_eq!(FOUR.diagonal(), Vector4::new(1.0, 6.0, 11.0, 16.0));
}

/// The three swaps of one order at every place, against exchanges in the array of columns.
macro_rules! swaps {
    ($name:ident, $Matrix:ident, $order:literal, $m:expr) => {
        #[test]
        fn $name() {
            for (a, b) in (0..$order).flat_map(|a| (0..$order).map(move |b| (a, b))) {
                let (mut m, mut array) = ($m, <[[f64; $order]; $order]>::from($m));
                m.swap_columns(a, b).unwrap();
                array.swap(a, b);
                assert_eq!(m, $Matrix::from(array));
                m.swap_rows(a, b).unwrap();
                array.iter_mut().for_each(|column| column.swap(a, b));
                assert_eq!(m, $Matrix::from(array));
                m.swap_elements((a, 0), (1, b)).unwrap();
                (array[a][0], array[1][b]) = (array[1][b], array[a][0]);
                assert_eq!(m, $Matrix::from(array));
            }
        }
    };
}

swaps!(swaps_of_order_2, Matrix2, 2, TWO);
swaps!(swaps_of_order_3, Matrix3, 3, THREE);
swaps!(swaps_of_order_4, Matrix4, 4, FOUR);

#[test]
fn embeddings() {
    let in_three = Matrix3::from([[1.0, 2.0, 0.0], [3.0, 4.0, 0.0], [0.0, 0.0, 1.0]]);
    let in_four = [[1.0, 2.0, 3.0, 0.0], [4.0, 5.0, 6.0, 0.0], [7.0, 8.0, 9.0, 0.0], [0.0, 0.0, 0.0, 1.0]];
    assert_eq!(Matrix3::from(TWO), in_three);
    assert_eq!(Matrix4::from(TWO), Matrix4::from(in_three));
    assert_eq!(Matrix4::from(THREE), Matrix4::from(in_four));
}

#[test]
fn rotations_around_the_axes() {
    let (s, c) = (0.6, 0.8);
    let around_x = Matrix3::from([[1.0, 0.0, 0.0], [0.0, c, s], [0.0, -s, c]]);
    let around_y = Matrix3::from([[c, 0.0, -s], [0.0, 1.0, 0.0], [s, 0.0, c]]);
    let around_z = Matrix3::from([[c, s, 0.0], [-s, c, 0.0], [0.0, 0.0, 1.0]]);
    assert_eq!(Matrix2::from_angle(s, c), Matrix2::new(c, s, -s, c));
    assert_eq!(Matrix3::from_angle_x(s, c), around_x);
    assert_eq!(Matrix3::from_angle_y(s, c), around_y);
    assert_eq!(Matrix3::from_angle_z(s, c), around_z);
    assert_eq!(Matrix4::from_angle_x(s, c), Matrix4::from(around_x));
    assert_eq!(Matrix4::from_angle_y(s, c), Matrix4::from(around_y));
    assert_eq!(Matrix4::from_angle_z(s, c), Matrix4::from(around_z));
}

#[test]
fn rotations_around_any_axis() {
    let turn = Matrix3::from_axis_angle(Vector3::new(2.0, 3.0, 5.0), 0.5, 0.25);
    let entries = [[3.25, 7.0, 6.0], [2.0, 7.0, 12.25], [9.0, 10.25, 19.0]];
    assert_eq!(turn, Matrix3::from(entries));
    assert_eq!(Matrix4::from_axis_angle(Vector3::new(2.0, 3.0, 5.0), 0.5, 0.25), Matrix4::from(turn));
}

#[test]
fn builders_place_numbers() {
    assert_eq!(Matrix2::zero(), Matrix2::new(0.0, 0.0, 0.0, 0.0));
    assert_eq!((Matrix2::one(), Matrix2::from_scale(2.0)), (Matrix2::identity(), Matrix2::from_value(2.0)));
    assert_eq!(Matrix3::from_diagonal(Vector3::new(1.0, 1.0, 1.0)), Matrix3::identity());
    assert_eq!(Matrix3::from_translation(Vector2::new(2.0, 3.0)).z, Vector3::new(2.0, 3.0, 1.0));
    assert_eq!(Matrix3::from_scale(2.0).diagonal(), Vector3::new(2.0, 2.0, 1.0));
    assert_eq!(Matrix4::from_translation(Vector3::new(2.0, 3.0, 4.0)).w, Vector4::new(2.0, 3.0, 4.0, 1.0));
    assert_eq!(Matrix4::from_nonuniform_scale(2.0, 3.0, 4.0).diagonal(), Vector4::new(2.0, 3.0, 4.0, 1.0));
    assert_eq!(Matrix4::from_cols(FOUR.x, FOUR.y, FOUR.z, FOUR.w), FOUR);
}

#[test]
fn entries_by_column_and_row() {
    let mut m = FOUR;
    assert_eq!((m[2][1], m[2], m.z), (10.0, FOUR.z, FOUR.z));
    m[3][0] = 99.0;
    assert_eq!(m.w.x, 99.0);
    assert_eq!(<[[f64; 4]; 4]>::from(FOUR)[1][3], 8.0);
    assert_eq!(format!("{TWO:?}"), "Matrix2 [[1.0, 2.0], [3.0, 4.0]]");
}

#[test]
#[should_panic(expected = "place 3 is not below 3")]
fn a_column_that_is_not_there() {
    let _ = THREE[3];
}

#[test]
#[should_panic(expected = "place 4 is not below 2")]
fn a_row_that_is_not_there() {
    let _ = TWO[0][4];
}

#[test]
fn many_vectors_as_one_by_one() {
    let vectors: Vec<Vector3> = (0..1000).map(|i| Vector3::new(f64::from(i), 0.1, 1.0 / f64::from(i))).collect();
    let mut moved = vectors.clone();
    THREE.move_vectors(Vector3::flat(&vectors), Vector3::flat_mut(&mut moved)).unwrap();
    let one_by_one: Vec<Vector3> = vectors.iter().map(|v| THREE * v).collect();
    assert_eq!(format!("{moved:?}"), format!("{one_by_one:?}"));
}

#[test]
fn many_vectors_of_each_order() {
    let mut out = [0.0; 4];
    assert_eq!((TWO.move_vectors(&[1.0, 0.0, 0.0, 1.0], &mut out), out), (Ok(()), [1.0, 2.0, 3.0, 4.0]));
    assert_eq!((FOUR.move_vectors(&[0.0, 0.0, 0.0, 1.0], &mut out), out), (Ok(()), [13.0, 14.0, 15.0, 16.0]));
}

#[test]
fn points_drop_their_last_coordinate() {
    let plane = Matrix3::from([[2.0, 0.0, 5.0], [0.0, 3.0, 5.0], [10.0, 20.0, 5.0]]);
    let points = [Vector2::new(1.0, 1.0), Vector2::new(2.0, 0.0)];
    let mut moved = points;
    plane.move_points(Vector2::flat(&points), Vector2::flat_mut(&mut moved)).unwrap();
    assert_eq!(moved, [Vector2::new(12.0, 23.0), Vector2::new(14.0, 20.0)]);

    let mut out = [0.0; 3];
    FOUR.move_points(&[1.0, 0.0, 0.0], &mut out).unwrap();
    assert_eq!(out, [14.0, 16.0, 18.0]);
}
