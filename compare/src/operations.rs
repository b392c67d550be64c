//! The operations of the list, each asked of cgmath by its public name.

use crate::bulk;
use crate::classes::{matrix, numbers, MATRICES};
use crate::entries::Take;
use crate::list::{given, inverse, Answer, List, Word};
use crate::second;
use crate::whole;
use cgmath::prelude::*;
use cgmath::{Matrix2, Matrix3, Matrix4, Vector2, Vector3, Vector4};

/// What every order has.
macro_rules! order {
    ($name:ident, $n:expr, $Matrix:ident ($($entry:expr),+), $Vector:ident ($($column:expr),+)) => {
        fn $name(list: &mut List) {
            const N: usize = $n;
            const SQUARE: usize = N * N;
            let m = |x: &[f64]| $Matrix::<f64>::take(x);
            let v = |x: &[f64]| $Vector::<f64>::take(x);

            list.numbers("vector_add", N, numbers(2 * N), |x| given(v(x) + v(&x[N..])));
            list.numbers("vector_sub", N, numbers(2 * N), |x| given(v(x) - v(&x[N..])));
            list.numbers("vector_scalar_mul", N, numbers(N + 1), |x| given(x[N] * v(x)));
            list.numbers("vector_dot", N, numbers(2 * N), |x| given(v(x).dot(v(&x[N..]))));

            list.numbers("zero", N, numbers(0), |_| given($Matrix::<f64>::zero()));
            list.numbers("identity", N, numbers(0), |_| given($Matrix::<f64>::identity()));
            list.numbers("new", N, numbers(SQUARE), |x| given($Matrix::new($(x[$entry]),+)));
            list.numbers("from_cols", N, numbers(SQUARE), |x| given($Matrix::from_cols($(v(&x[$column * N..])),+)));
            list.numbers("from_array", N, numbers(SQUARE), |x| given($Matrix::from(<[[f64; N]; N]>::take(x))));
            list.numbers("into_array", N, matrix(0), |x| given(Into::<[[f64; N]; N]>::into(m(x))));
            list.numbers("from_value", N, numbers(1), |x| given($Matrix::from_value(x[0])));
            list.numbers("from_diagonal", N, numbers(N), |x| given($Matrix::from_diagonal(v(x))));

            list.places("row", N, matrix(0), 1, |x, p| given(m(x).row(p[0])));
            list.numbers("diagonal", N, matrix(0), |x| given(m(x).diagonal()));
            list.numbers("transpose", N, matrix(0), |x| given(m(x).transpose()));
            list.places("swap_rows", N, matrix(0), 2, |x, p| changed(m(x), |m| m.swap_rows(p[0], p[1])));
            list.places("swap_columns", N, matrix(0), 2, |x, p| changed(m(x), |m| m.swap_columns(p[0], p[1])));
            list.places("swap_elements", N, matrix(0), 4, |x, p| {
                changed(m(x), |m| m.swap_elements((p[0], p[1]), (p[2], p[3])))
            });

            list.numbers("add", N, MATRICES, |x| given(m(x) + m(&x[SQUARE..])));
            list.numbers("sub", N, MATRICES, |x| given(m(x) - m(&x[SQUARE..])));
            list.numbers("scalar_mul", N, matrix(1), |x| given(x[SQUARE] * m(x)));
            list.numbers("scalar_div", N, matrix(1), |x| given(x[SQUARE] / m(x)));
            list.numbers("mul_scalar", N, matrix(1), |x| given(m(x) * x[SQUARE]));
            list.numbers("div_scalar", N, matrix(1), |x| given(m(x) / x[SQUARE]));
            list.numbers("neg", N, matrix(0), |x| given(-m(x)));
            list.numbers("mul", N, MATRICES, |x| given(m(x) * m(&x[SQUARE..])));
            list.numbers("mul_vector", N, matrix(N), |x| given(m(x) * v(&x[SQUARE..])));

            list.numbers("determinant", N, matrix(0), |x| given(m(x).determinant()));
            list.numbers("invert", N, matrix(0), |x| inverse(m(x).invert()));
        }
    };
}

order!(order2, 2, Matrix2(0, 1, 2, 3), Vector2(0, 1));
order!(order3, 3, Matrix3(0, 1, 2, 3, 4, 5, 6, 7, 8), Vector3(0, 1, 2));
order!(order4, 4, Matrix4(0, 1, 2, 3, 4, 5, 6, 7, 8, 9, 10, 11, 12, 13, 14, 15), Vector4(0, 1, 2, 3));

/// A matrix after a change in place.
fn changed<M: crate::entries::Entries>(mut m: M, change: impl Fn(&mut M)) -> Answer {
    change(&mut m);
    given(m)
}

/// What only some vectors have. `as _`: the crate's own place is an `isize`.
fn vectors(list: &mut List) {
    let v = |x: &[f64]| Vector3::<f64>::take(x);
    list.numbers("vector_div_scalar", 3, numbers(4), |x| given(v(x) / x[3]));
    list.numbers("vector_cross", 3, numbers(6), |x| given(v(x).cross(v(&x[3..]))));
    list.places("vector_truncate_n", 4, numbers(4), 1, |x, p| given(Vector4::<f64>::take(x).truncate_n(p[0] as _)));
}

/// What only some orders build.
fn builders(list: &mut List) {
    list.second("from_scale", 2, 1, |x| second::from_scale_2(x[0]));
    list.numbers("from_scale", 3, numbers(1), |x| given(Matrix3::from_scale(x[0])));
    list.numbers("from_scale", 4, numbers(1), |x| given(Matrix4::from_scale(x[0])));
    list.numbers("from_nonuniform_scale", 3, numbers(2), |x| given(Matrix3::from_nonuniform_scale(x[0], x[1])));
    list.numbers("from_nonuniform_scale", 4, numbers(3), |x| given(Matrix4::from_nonuniform_scale(x[0], x[1], x[2])));
    list.numbers("from_translation", 3, numbers(2), |x| given(Matrix3::from_translation(Take::take(x))));
    list.numbers("from_translation", 4, numbers(3), |x| given(Matrix4::from_translation(Take::take(x))));
    list.numbers("from_matrix2", 3, numbers(4), |x| given(Matrix3::from(Matrix2::take(x))));
    list.numbers("from_matrix2", 4, numbers(4), |x| given(Matrix4::from(Matrix2::take(x))));
    list.numbers("from_matrix3", 4, numbers(9), |x| given(Matrix4::from(Matrix3::take(x))));
}

/// Rotations.
fn rotations(list: &mut List) {
    list.rotation("from_angle", 2, 0, |_, t| given(Matrix2::from_angle(t)), |_, s, c| second::from_angle(s, c));
    list.rotation("from_angle_x", 3, 0, |_, t| given(Matrix3::from_angle_x(t)), |_, s, c| second::from_angle_x(s, c));
    list.rotation("from_angle_y", 3, 0, |_, t| given(Matrix3::from_angle_y(t)), |_, s, c| second::from_angle_y(s, c));
    list.rotation("from_angle_z", 3, 0, |_, t| given(Matrix3::from_angle_z(t)), |_, s, c| second::from_angle_z(s, c));
    list.rotation(
        "from_axis_angle",
        3,
        3,
        |axis, t| given(Matrix3::from_axis_angle(Take::take(axis), t)),
        second::from_axis_angle,
    );
    list.rotation(
        "from_angle_x",
        4,
        0,
        |_, t| given(Matrix4::from_angle_x(t)),
        |_, s, c| second::embedded(second::from_angle_x(s, c)),
    );
    list.rotation(
        "from_angle_y",
        4,
        0,
        |_, t| given(Matrix4::from_angle_y(t)),
        |_, s, c| second::embedded(second::from_angle_y(s, c)),
    );
    list.rotation(
        "from_angle_z",
        4,
        0,
        |_, t| given(Matrix4::from_angle_z(t)),
        |_, s, c| second::embedded(second::from_angle_z(s, c)),
    );
    list.rotation(
        "from_axis_angle",
        4,
        3,
        |axis, t| given(Matrix4::from_axis_angle(Take::take(axis), t)),
        |axis, s, c| second::embedded(second::from_axis_angle(axis, s, c)),
    );
}

/// A determinant that is 1, said to be 2: what compares the list has to find this line different.
fn planted(list: &mut List) {
    let words = [3.0, 5.0, 1.0, 2.0].map(Word::Number);
    list.line("planted", 2, "whole", &words, &Answer::Given(vec![2.0]));
}

/// The exact engine's lines, and cgmath's determinant of the same matrices.
fn wholes(list: &mut List) {
    whole::order(list, 2, |x| Matrix2::<f64>::take(x).determinant());
    whole::order(list, 3, |x| Matrix3::<f64>::take(x).determinant());
    whole::order(list, 4, |x| Matrix4::<f64>::take(x).determinant());
}

/// Every line of the list. New ones stand at the end, so that the inputs of the others stay as they are.
pub fn all(list: &mut List) {
    order2(list);
    order3(list);
    order4(list);
    vectors(list);
    builders(list);
    rotations(list);
    planted(list);
    wholes(list);
    bulk::all(list);
}
