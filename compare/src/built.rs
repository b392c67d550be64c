//! What the Rust crate does by itself, without the static library or around it: making matrices of numbers and back,
//! and the operators that assign.

use crate::classes::{matrix, numbers, MATRICES};
use crate::differential::Run;
use crate::entries::Take;
use crate::list::given;
use crate::rows::changed_there;
use crate::second;
use cgmath::prelude::*;

/// What every order has.
macro_rules! order {
    ($name:ident, $n:expr, $Matrix:ident ($($entry:expr),+), $Vector:ident ($($column:expr),+)) => {
        fn $name(run: &mut Run) {
            const N: usize = $n;
            const SQUARE: usize = N * N;
            let theirs = |x: &[f64]| cgmath::$Matrix::<f64>::take(x);
            let ours = |x: &[f64]| migthumo::$Matrix::take(x);
            let array = |x: &[f64]| <[[f64; N]; N]>::take(x);

            run.carried(
                "new",
                N,
                numbers(SQUARE),
                |x| given(cgmath::$Matrix::new($(x[$entry]),+)),
                |x| given(migthumo::$Matrix::new($(x[$entry]),+)),
            );
            run.carried(
                "from_cols",
                N,
                numbers(SQUARE),
                |x| given(cgmath::$Matrix::from_cols($(cgmath::$Vector::take(&x[$column * N..])),+)),
                |x| given(migthumo::$Matrix::from_cols($(migthumo::$Vector::take(&x[$column * N..])),+)),
            );
            run.carried(
                "from array",
                N,
                numbers(SQUARE),
                |x| given(cgmath::$Matrix::from(array(x))),
                |x| given(migthumo::$Matrix::from(array(x))),
            );
            run.carried(
                "into array",
                N,
                numbers(SQUARE),
                |x| given(Into::<[[f64; N]; N]>::into(theirs(x))),
                |x| given(<[[f64; N]; N]>::from(ours(x))),
            );
            run.carried(
                "from_value",
                N,
                numbers(1),
                |x| given(cgmath::$Matrix::from_value(x[0])),
                |x| given(migthumo::$Matrix::from_value(x[0])),
            );
            run.carried(
                "from_diagonal",
                N,
                numbers(N),
                |x| given(cgmath::$Matrix::from_diagonal(cgmath::$Vector::take(x))),
                |x| given(migthumo::$Matrix::from_diagonal(migthumo::$Vector::take(x))),
            );
            run.carried(
                "transpose_self",
                N,
                matrix(0),
                |x| changed_there(theirs(x), |m| m.transpose_self()),
                |x| changed_there(ours(x), |m| m.transpose_self()),
            );
            run.arithmetic(
                "+=",
                N,
                MATRICES,
                |x| changed_there(theirs(x), |m| *m += theirs(&x[SQUARE..])),
                |x| changed_there(ours(x), |m| *m += ours(&x[SQUARE..])),
            );
            run.arithmetic(
                "-=",
                N,
                MATRICES,
                |x| changed_there(theirs(x), |m| *m -= theirs(&x[SQUARE..])),
                |x| changed_there(ours(x), |m| *m -= ours(&x[SQUARE..])),
            );
            run.arithmetic(
                "*= number",
                N,
                matrix(1),
                |x| changed_there(theirs(x), |m| *m *= x[SQUARE]),
                |x| changed_there(ours(x), |m| *m *= x[SQUARE]),
            );
            run.arithmetic(
                "/= number",
                N,
                matrix(1),
                |x| changed_there(theirs(x), |m| *m /= x[SQUARE]),
                |x| changed_there(ours(x), |m| *m /= x[SQUARE]),
            );
        }
    };
}

order!(order2, 2, Matrix2(0, 1, 2, 3), Vector2(0, 1));
order!(order3, 3, Matrix3(0, 1, 2, 3, 4, 5, 6, 7, 8), Vector3(0, 1, 2));
order!(order4, 4, Matrix4(0, 1, 2, 3, 4, 5, 6, 7, 8, 9, 10, 11, 12, 13, 14, 15), Vector4(0, 1, 2, 3));

/// What only some orders build.
fn builders(run: &mut Run) {
    run.carried_second(
        "from_scale",
        2,
        numbers(1),
        |x| second::from_scale_2(x[0]),
        |x| given(migthumo::Matrix2::from_scale(x[0])),
    );
    run.carried(
        "from_scale",
        3,
        numbers(1),
        |x| given(cgmath::Matrix3::from_scale(x[0])),
        |x| given(migthumo::Matrix3::from_scale(x[0])),
    );
    run.carried(
        "from_scale",
        4,
        numbers(1),
        |x| given(cgmath::Matrix4::from_scale(x[0])),
        |x| given(migthumo::Matrix4::from_scale(x[0])),
    );
    run.carried(
        "nonuniform_scale",
        3,
        numbers(2),
        |x| given(cgmath::Matrix3::from_nonuniform_scale(x[0], x[1])),
        |x| given(migthumo::Matrix3::from_nonuniform_scale(x[0], x[1])),
    );
    run.carried(
        "nonuniform_scale",
        4,
        numbers(3),
        |x| given(cgmath::Matrix4::from_nonuniform_scale(x[0], x[1], x[2])),
        |x| given(migthumo::Matrix4::from_nonuniform_scale(x[0], x[1], x[2])),
    );
    run.carried(
        "from_translation",
        3,
        numbers(2),
        |x| given(cgmath::Matrix3::from_translation(Take::take(x))),
        |x| given(migthumo::Matrix3::from_translation(Take::take(x))),
    );
    run.carried(
        "from_translation",
        4,
        numbers(3),
        |x| given(cgmath::Matrix4::from_translation(Take::take(x))),
        |x| given(migthumo::Matrix4::from_translation(Take::take(x))),
    );
}

/// Every row.
pub fn all(run: &mut Run) {
    order2(run);
    order3(run);
    order4(run);
    builders(run);
}
