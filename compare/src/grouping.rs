//! How a dot is summed, found by numbers on which the ways part.

use cgmath::{InnerSpace, Matrix3, Matrix4, Vector3, Vector4};

/// 2^53: from here on a single 1 is rounded away, and two of them together are not.
const LARGE: f64 = 9007199254740992.0;

/// Four numbers to be summed, told apart by two sums.
const FOUR: [[f64; 4]; 2] = [[LARGE, 1.0, 1.0, 1.0], [0.0, LARGE, 1.0, 1.0]];

/// How three numbers are summed.
fn of_three(sum: impl Fn([f64; 3]) -> f64) -> &'static str {
    match sum([LARGE, 1.0, 1.0]) - LARGE {
        2.0 => "x+(y+z)",
        0.0 => "(x+y)+z",
        _ => "neither x+(y+z) nor (x+y)+z",
    }
}

/// How four numbers are summed.
fn of_four(sum: impl Fn([f64; 4]) -> f64) -> &'static str {
    match FOUR.map(|x| sum(x) - LARGE) {
        [4.0, 2.0] => "x+(y+(z+w))",
        [0.0, 0.0] => "((x+y)+z)+w",
        _ => "neither x+(y+(z+w)) nor ((x+y)+z)+w",
    }
}

/// What is asked, and how the crate given and Migthumo sum there.
pub fn lines() -> [(&'static str, &'static str, &'static str); 4] {
    let (ones3, ones4) = (Vector3::from([1.0; 3]), Vector4::from([1.0; 4]));
    let m3 = Matrix3::from_cols(ones3, ones3, ones3);
    let m4 = Matrix4::from_cols(ones4, ones4, ones4, ones4);
    let ours3 = migthumo::Matrix3::from([[1.0; 3]; 3]);
    let ours4 = migthumo::Matrix4::from([[1.0; 4]; 4]);
    [
        ("dot of 3", of_three(|x| ones3.dot(x.into())), "not offered"),
        ("dot of 4", of_four(|x| ones4.dot(x.into())), "not offered"),
        (
            "matrix of order 3 times vector",
            of_three(|x| (m3 * Vector3::from(x)).x),
            of_three(|x| (ours3 * migthumo::Vector3::from(x)).x),
        ),
        (
            "matrix of order 4 times vector",
            of_four(|x| (m4 * Vector4::from(x)).x),
            of_four(|x| (ours4 * migthumo::Vector4::from(x)).x),
        ),
    ]
}
