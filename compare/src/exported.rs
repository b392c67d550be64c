//! Every operation that the static library exports, asked of cgmath by its public names and of the Rust crate.

use crate::built;
use crate::cases;
use crate::classes::{matrix, MATRICES};
use crate::differential::{Entry, Run};
use crate::entries::{Entries, Take};
use crate::flat;
use crate::list::{given, inverse, Answer};
use crate::rows::{cgmath, changed, changed_there, each, output_of, result, whole_number};
use crate::rule::Rule;
use crate::second;
use crate::whole;
use cgmath::prelude::*;
use cgmath::{Point2, Point3};
use migthumo::ffi;

/// What every order has.
macro_rules! order {
    ($name:ident, $n:expr, $Matrix:ident, $Vector:ident) => {
        fn $name(run: &mut Run) {
            const N: usize = $n;
            const SQUARE: usize = N * N;
            let theirs = |x: &[f64]| cgmath::$Matrix::<f64>::take(x);
            let ours = |x: &[f64]| migthumo::$Matrix::take(x);
            let their_vector = |x: &[f64]| cgmath::$Vector::<f64>::take(x);
            let our_vector = |x: &[f64]| migthumo::$Vector::take(x);

            run.arithmetic(
                "determinant",
                N,
                matrix(0),
                |x| given(theirs(x).determinant()),
                |x| given(ours(x).determinant()),
            );
            run.arithmetic("invert", N, matrix(0), |x| inverse(theirs(x).invert()), |x| result(ours(x).invert()));
            run.arithmetic(
                "product",
                N,
                MATRICES,
                |x| given(theirs(x) * theirs(&x[SQUARE..])),
                |x| given(ours(x) * ours(&x[SQUARE..])),
            );
            run.arithmetic(
                "times_vector",
                N,
                matrix(N),
                |x| given(theirs(x) * their_vector(&x[SQUARE..])),
                |x| given(ours(x) * our_vector(&x[SQUARE..])),
            );
            run.arithmetic(
                "add",
                N,
                MATRICES,
                |x| given(theirs(x) + theirs(&x[SQUARE..])),
                |x| given(ours(x) + ours(&x[SQUARE..])),
            );
            run.arithmetic(
                "subtract",
                N,
                MATRICES,
                |x| given(theirs(x) - theirs(&x[SQUARE..])),
                |x| given(ours(x) - ours(&x[SQUARE..])),
            );
            run.arithmetic("scale", N, matrix(1), |x| given(x[SQUARE] * theirs(x)), |x| given(x[SQUARE] * ours(x)));
            run.arithmetic("divide", N, matrix(1), |x| given(x[SQUARE] / theirs(x)), |x| given(x[SQUARE] / ours(x)));
            run.arithmetic("scale_by", N, matrix(1), |x| given(theirs(x) * x[SQUARE]), |x| given(ours(x) * x[SQUARE]));
            run.arithmetic("divide_by", N, matrix(1), |x| given(theirs(x) / x[SQUARE]), |x| given(ours(x) / x[SQUARE]));
            run.arithmetic("negate", N, matrix(0), |x| given(-theirs(x)), |x| given(-ours(x)));

            run.carried("transpose", N, matrix(0), |x| given(theirs(x).transpose()), |x| given(ours(x).transpose()));
            run.carried("diagonal", N, matrix(0), |x| given(theirs(x).diagonal()), |x| given(ours(x).diagonal()));
            run.placed("row", N, 1, |x, p| given(theirs(x).row(p[0])), |x, p| result(ours(x).row(p[0])));

            run.exact("signed_sum", N, whole::signed_sum, |x| whole_number(ours(x).signed_sum()));
            run.exact("undoable", N, whole::undoable, |x| whole_number(ours(x).undoable()));
            run.moves(
                "move_vectors",
                N,
                N,
                |m, v| (theirs(m) * their_vector(v)).entries(),
                |m, flat, out| ours(m).move_vectors(flat, out),
            );
        }
    };
}

order!(order2, 2, Matrix2, Vector2);
order!(order3, 3, Matrix3, Vector3);
order!(order4, 4, Matrix4, Vector4);

/// The swaps of a matrix: by value at orders 2 and 3, in place at order 4.
macro_rules! swaps {
    ($name:ident, $n:expr, $Matrix:ident, $rows:expr, $columns:expr, $elements:expr) => {
        fn $name(run: &mut Run) {
            const N: usize = $n;
            let theirs = |x: &[f64]| cgmath::$Matrix::<f64>::take(x);
            let ours = |x: &[f64]| migthumo::$Matrix::take(x);
            run.placed(
                $rows,
                N,
                2,
                |x, p| changed_there(theirs(x), |m| m.swap_rows(p[0], p[1])),
                |x, p| changed(ours(x), |m| m.swap_rows(p[0], p[1])),
            );
            run.placed(
                $columns,
                N,
                2,
                |x, p| changed_there(theirs(x), |m| m.swap_columns(p[0], p[1])),
                |x, p| changed(ours(x), |m| m.swap_columns(p[0], p[1])),
            );
            run.placed(
                $elements,
                N,
                4,
                |x, p| changed_there(theirs(x), |m| m.swap_elements((p[0], p[1]), (p[2], p[3]))),
                |x, p| changed(ours(x), |m| m.swap_elements((p[0], p[1]), (p[2], p[3]))),
            );
        }
    };
}

swaps!(swaps2, 2, Matrix2, "swap_rows", "swap_columns", "swap_elements");
swaps!(swaps3, 3, Matrix3, "swap_rows", "swap_columns", "swap_elements");
swaps!(swaps4_in_place, 4, Matrix4, "swap_rows_mut", "swap_columns_mut", "swap_elements_mut");

/// The swaps of order 4 by value, over flat slices: the Rust crate's own are in place.
fn swaps4(run: &mut Run) {
    let theirs = |x: &[f64]| cgmath::Matrix4::<f64>::take(x);
    run.placed(
        "swap_rows",
        4,
        2,
        |x, p| changed_there(theirs(x), |m| m.swap_rows(p[0], p[1])),
        |x, p| output_of(16, |out| ffi::swap_rows(4, p[0], p[1], x, out)),
    );
    run.placed(
        "swap_columns",
        4,
        2,
        |x, p| changed_there(theirs(x), |m| m.swap_columns(p[0], p[1])),
        |x, p| output_of(16, |out| ffi::swap_columns(4, p[0], p[1], x, out)),
    );
    run.placed(
        "swap_elements",
        4,
        4,
        |x, p| changed_there(theirs(x), |m| m.swap_elements((p[0], p[1]), (p[2], p[3]))),
        |x, p| output_of(16, |out| ffi::swap_elements(4, p[0], p[1], p[2], p[3], x, out)),
    );
}

/// Points: extended by 1, multiplied, the last coordinate dropped; and how often transform_point does otherwise.
macro_rules! points {
    ($name:ident, $n:expr, $Matrix:ident, $Vector:ident, $Point:ident) => {
        fn $name(run: &mut Run) {
            const N: usize = $n;
            const SQUARE: usize = N * N;
            let theirs = |x: &[f64]| cgmath::$Matrix::<f64>::take(x);
            let point = |x: &[f64]| cgmath::$Vector::<f64>::take(x);
            let ours = |m: &[f64], flat: &[f64], out: &mut [f64]| migthumo::$Matrix::take(m).move_points(flat, out);
            let moved = |m: &[f64], p: &[f64]| (theirs(m) * point(p).extend(1.0)).truncate().entries();
            let transformed =
                |m: &[f64], p: &[f64]| theirs(m).transform_point($Point::from_vec(point(p))).to_vec().entries();
            run.moves("move_points", N, N - 1, moved, ours);
            run.row(
                Entry { intended: true, ..cgmath("transform_point", N, Rule::Numbers) },
                |random, number| cases::moved(random, number, N, N - 1),
                |case| Answer::Given(each(N, N - 1, &case.numbers, transformed)),
                |case| {
                    let (m, flat) = case.numbers.split_at(SQUARE);
                    output_of(flat.len(), |out| ours(m, flat, out))
                },
            );
        }
    };
}

points!(points3, 3, Matrix3, Vector2, Point2);
points!(points4, 4, Matrix4, Vector3, Point3);

/// Smaller matrices in the corner of larger ones.
fn embeddings(run: &mut Run) {
    let (theirs2, ours2) = (|x: &[f64]| cgmath::Matrix2::<f64>::take(x), |x: &[f64]| migthumo::Matrix2::take(x));
    let (theirs3, ours3) = (|x: &[f64]| cgmath::Matrix3::<f64>::take(x), |x: &[f64]| migthumo::Matrix3::take(x));
    run.carried(
        "embed_in_3",
        2,
        matrix(0),
        |x| given(cgmath::Matrix3::from(theirs2(x))),
        |x| given(migthumo::Matrix3::from(ours2(x))),
    );
    run.carried(
        "embed_in_4",
        2,
        matrix(0),
        |x| given(cgmath::Matrix4::from(theirs2(x))),
        |x| given(migthumo::Matrix4::from(ours2(x))),
    );
    run.carried(
        "embed_in_4",
        3,
        matrix(0),
        |x| given(cgmath::Matrix4::from(theirs3(x))),
        |x| given(migthumo::Matrix4::from(ours3(x))),
    );
}

/// Rotations of order 3 and of order 4, the second computation of order 4 embedded.
macro_rules! rotations {
    ($name:ident, $n:expr, $Matrix:ident, $embedded:expr) => {
        fn $name(run: &mut Run) {
            const N: usize = $n;
            let embedded = $embedded;
            run.rotation(
                "from_angle_x",
                N,
                0,
                |_, t| given(cgmath::$Matrix::from_angle_x(t)),
                |_, s, c| embedded(second::from_angle_x(s, c)),
                |_, s, c| given(migthumo::$Matrix::from_angle_x(s, c)),
            );
            run.rotation(
                "from_angle_y",
                N,
                0,
                |_, t| given(cgmath::$Matrix::from_angle_y(t)),
                |_, s, c| embedded(second::from_angle_y(s, c)),
                |_, s, c| given(migthumo::$Matrix::from_angle_y(s, c)),
            );
            run.rotation(
                "from_angle_z",
                N,
                0,
                |_, t| given(cgmath::$Matrix::from_angle_z(t)),
                |_, s, c| embedded(second::from_angle_z(s, c)),
                |_, s, c| given(migthumo::$Matrix::from_angle_z(s, c)),
            );
            run.rotation(
                "from_axis_angle",
                N,
                3,
                |axis, t| given(cgmath::$Matrix::from_axis_angle(Take::take(axis), t)),
                |axis, s, c| embedded(second::from_axis_angle(axis, s, c)),
                |axis, s, c| given(migthumo::$Matrix::from_axis_angle(Take::take(axis), s, c)),
            );
        }
    };
}

rotations!(rotations3, 3, Matrix3, |entries: Vec<f64>| entries);
rotations!(rotations4, 4, Matrix4, second::embedded);

/// The rotation of the plane.
fn rotation2(run: &mut Run) {
    run.rotation(
        "from_angle",
        2,
        0,
        |_, t| given(cgmath::Matrix2::from_angle(t)),
        |_, s, c| second::from_angle(s, c),
        |_, s, c| given(migthumo::Matrix2::from_angle(s, c)),
    );
}

/// Every row.
pub fn all(run: &mut Run) {
    order2(run);
    order3(run);
    order4(run);
    swaps2(run);
    swaps3(run);
    swaps4(run);
    swaps4_in_place(run);
    points3(run);
    points4(run);
    embeddings(run);
    rotation2(run);
    rotations3(run);
    rotations4(run);
    flat::all(run);
    built::all(run);
}
