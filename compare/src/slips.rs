//! Functions that are wrong on purpose, in the ways this trade knows, held to cgmath as ours are: the classes of input
//! have to tell each of them from the right one.

use crate::cases::{self, Case};
use crate::classes::{matrix, Shape, MATRICES};
use crate::differential::{Entry, Run};
use crate::entries::Take;
use crate::list::{given, inverse, Answer};
use crate::panics::refusing;
use crate::rule::Rule;
use crate::wrong::{Wrong, WRONG};
use cgmath::prelude::*;
use cgmath::{Matrix2, Matrix3, Matrix4, Point3, Vector3, Vector4};

/// Numbers as a matrix of cgmath's.
fn m2(x: &[f64]) -> Matrix2<f64> {
    Take::take(x)
}

/// Numbers as a matrix of cgmath's.
fn m3(x: &[f64]) -> Matrix3<f64> {
    Take::take(x)
}

/// Numbers as a matrix of cgmath's.
fn m4(x: &[f64]) -> Matrix4<f64> {
    Take::take(x)
}

/// The inverse of order 2 by the reciprocal of the determinant, which rounds twice.
fn reciprocal2(m: Matrix2<f64>) -> Option<Matrix2<f64>> {
    let r = 1.0 / m.determinant();
    m.invert().map(|_| Matrix2::new(m.y.y * r, -m.x.y * r, -m.y.x * r, m.x.x * r))
}

/// The inverse of order 3 by the reciprocal of the determinant, which rounds twice.
fn reciprocal3(m: Matrix3<f64>) -> Option<Matrix3<f64>> {
    let r = 1.0 / m.determinant();
    m.invert().map(|_| Matrix3::from_cols(m.y.cross(m.z) * r, m.z.cross(m.x) * r, m.x.cross(m.y) * r).transpose())
}

/// The inverse of order 4 divided by the determinant, which rounds once too little.
fn divided4(m: Matrix4<f64>) -> Option<Matrix4<f64>> {
    let (d, t) = (m.determinant(), m.transpose());
    let minor = |i: usize, j: usize| {
        let kept: Vec<Vector3<f64>> =
            (0..4).filter(|column| *column != i).map(|column| t[column].truncate_n(j as _)).collect();
        let sign = if (i + j) % 2 == 1 { -1.0 } else { 1.0 };
        Matrix3::from_cols(kept[0], kept[1], kept[2]).determinant() * sign / d
    };
    let column = |i: usize| Vector4::new(minor(i, 0), minor(i, 1), minor(i, 2), minor(i, 3));
    m.invert().map(|_| Matrix4::from_cols(column(0), column(1), column(2), column(3)))
}

/// A dot of four summed the other way than the crate given does.
fn other_dot(a: Vector4<f64>, b: Vector4<f64>) -> f64 {
    let [x, y, z, w] = [a.x * b.x, a.y * b.y, a.z * b.z, a.w * b.w];
    let probe = Vector4::new(9007199254740992.0, 1.0, 1.0, 1.0);
    if probe.dot(Vector4::new(1.0, 1.0, 1.0, 1.0)) == probe.x {
        x + (y + (z + w))
    } else {
        ((x + y) + z) + w
    }
}

/// Matrix times vector with the other dot.
fn other_times(m: Matrix4<f64>, v: Vector4<f64>) -> Vector4<f64> {
    Vector4::new(other_dot(m.row(0), v), other_dot(m.row(1), v), other_dot(m.row(2), v), other_dot(m.row(3), v))
}

/// A product of order 4 with each sum from the right.
fn from_the_right(a: Matrix4<f64>, b: Matrix4<f64>) -> Matrix4<f64> {
    let sum = |r: Vector4<f64>, c: Vector4<f64>| r.x * c.x + (r.y * c.y + (r.z * c.z + r.w * c.w));
    let column = |c| Vector4::new(sum(a.row(0), c), sum(a.row(1), c), sum(a.row(2), c), sum(a.row(3), c));
    Matrix4::from_cols(column(b.x), column(b.y), column(b.z), column(b.w))
}

/// The determinant of order 3 with its last two terms taken together.
fn second_less_third(m: Matrix3<f64>) -> f64 {
    let [x, y, z] = [m.x, m.y, m.z];
    x.x * (y.y * z.z - z.y * y.z) - (y.x * (x.y * z.z - z.y * x.z) - z.x * (x.y * y.z - y.y * x.z))
}

/// A refusal where the determinant is almost zero.
fn tolerant(m: Matrix2<f64>) -> Option<Matrix2<f64>> {
    m.invert().filter(|_| m.determinant().abs() > 1e-12 || m.determinant().is_nan())
}

/// The same number; a NaN loses the mark that it signals.
fn quieted(x: f64) -> f64 {
    if x.is_nan() {
        f64::from_bits(x.to_bits() | 1 << 51)
    } else {
        x
    }
}

/// The place itself, or the last one below the order where it is not.
fn last(place: &usize) -> usize {
    (*place).min(3)
}

/// Whether the static library exports an entry that names places: the list alone asks the others.
fn exported(entry: &str) -> bool {
    !matches!(entry, "truncate_n" | "cofactor")
}

impl Run {
    /// A wrong function beside the right one.
    fn slip(
        &mut self,
        name: &'static str,
        order: usize,
        shape: Shape,
        right: impl Fn(&[f64]) -> Answer,
        wrong: impl Fn(&[f64]) -> Answer,
    ) {
        let entry = Entry { name, order, rule: Rule::Numbers, against: "cgmath", intended: true };
        let draw = |random: &mut _, number| cases::numbers(random, number, order, shape);
        self.row(entry, draw, |case| right(&case.numbers), |case| wrong(&case.numbers));
    }

    /// Wrong places beside the right ones, and taken by both sides, and NaNs that are not carried.
    fn slips_of_moves(&mut self) {
        let harmless =
            |case: &Case| asked("swap_columns", &case.numbers, &case.places.iter().map(last).collect::<Vec<_>>());
        self.row(
            moves("swap(5,5) taken as harmless"),
            |random, number| cases::places(random, number, 4, 2),
            |case| refusing("swap_columns", 4, &case.places, || asked("swap_columns", &case.numbers, &case.places)),
            harmless,
        );
        self.row(
            moves("swap(5,5) taken as harmless by both"),
            |random, number| cases::places(random, number, 4, 2),
            |case| refusing("swap_columns", 4, &case.places, || harmless(case)),
            harmless,
        );
        self.row(
            moves("a NaN quieted on its way"),
            |random, number| cases::numbers(random, number, 4, matrix(0)),
            |case| given(m4(&case.numbers).transpose()),
            |case| given(m4(&case.numbers.iter().map(|x| quieted(*x)).collect::<Vec<f64>>()).transpose()),
        );
    }

    /// A library that refuses places wrongly, beside the table's refusals.
    fn slip_of_places(&mut self, wrong: &Wrong) {
        let done = |case: &Case| asked(wrong.entry, &case.numbers, &case.places);
        self.row(
            moves(wrong.name),
            |random, number| cases::places(random, number, 4, wrong.tests.len()),
            |case| refusing(wrong.entry, 4, &case.places, || done(case)),
            |case| wrong.refusal(4, &case.places).map_or_else(|| done(case), Answer::Refused),
        );
    }
}

/// A row of a slip that only moves the numbers of a matrix of order 4.
fn moves(name: &'static str) -> Entry {
    Entry { name, order: 4, rule: Rule::Bits, against: "cgmath", intended: true }
}

/// What cgmath's matrix of order 4 answers to an exported entry that names places.
fn asked(entry: &str, x: &[f64], places: &[usize]) -> Answer {
    let mut m = m4(x);
    match (entry, places) {
        ("row", [r]) => return given(m.row(*r)),
        ("swap_rows", [a, b]) => m.swap_rows(*a, *b),
        ("swap_columns", [a, b]) => m.swap_columns(*a, *b),
        ("swap_elements", [ac, ar, bc, br]) => m.swap_elements((*ac, *ar), (*bc, *br)),
        _ => unreachable!("{entry} with {} places", places.len()),
    }
    given(m)
}

/// A point moved, and divided by the last coordinate.
fn homogeneous(m: Matrix4<f64>, p: Vector3<f64>) -> Answer {
    given(Point3::from_homogeneous(m * p.extend(1.0)).to_vec())
}

/// Every slip.
pub fn all(run: &mut Run) {
    let v4 = |x: &[f64]| Vector4::<f64>::take(x);
    run.slip("[c][r] read as [r][c]", 2, MATRICES, |x| given(m2(x) * m2(&x[4..])), |x| given(m2(&x[4..]) * m2(x)));
    run.slip("1/d in place of a division", 2, matrix(0), |x| inverse(m2(x).invert()), |x| inverse(reciprocal2(m2(x))));
    run.slip("1/d in place of a division", 3, matrix(0), |x| inverse(m3(x).invert()), |x| inverse(reciprocal3(m3(x))));
    run.slip("a division in place of 1/d", 4, matrix(0), |x| inverse(m4(x).invert()), |x| inverse(divided4(m4(x))));
    run.slip(
        "the inverse transposed",
        4,
        matrix(0),
        |x| inverse(m4(x).invert()),
        |x| inverse(m4(x).invert().map(|m| m.transpose())),
    );
    run.slip("refusal by a tolerance", 2, matrix(0), |x| inverse(m2(x).invert()), |x| inverse(tolerant(m2(x))));
    run.slip(
        "refusal of a NaN",
        3,
        matrix(0),
        |x| inverse(m3(x).invert()),
        |x| inverse(m3(x).invert().filter(|_| !m3(x).determinant().is_nan())),
    );
    run.slip(
        "a dot grouped otherwise",
        4,
        matrix(4),
        |x| given(m4(x) * v4(&x[16..])),
        |x| given(other_times(m4(x), v4(&x[16..]))),
    );
    run.slip(
        "a product summed from the right",
        4,
        MATRICES,
        |x| given(m4(x) * m4(&x[16..])),
        |x| given(from_the_right(m4(x), m4(&x[16..]))),
    );
    run.slip(
        "first - (second - third)",
        3,
        matrix(0),
        |x| given(m3(x).determinant()),
        |x| given(second_less_third(m3(x))),
    );
    run.slip("m / s in place of s / m", 2, matrix(1), |x| given(x[4] / m2(x)), |x| given(m2(x) / x[4]));
    run.slip("0 - m in place of -m", 3, matrix(0), |x| given(-m3(x)), |x| given(Matrix3::zero() - m3(x)));
    run.slip(
        "a point divided by the last coordinate",
        4,
        matrix(3),
        |x| given((m4(x) * Vector3::take(&x[16..]).extend(1.0)).truncate()),
        |x| homogeneous(m4(x), Take::take(&x[16..])),
    );
    run.slips_of_moves();
    for wrong in WRONG.iter().filter(|wrong| exported(wrong.entry)) {
        run.slip_of_places(wrong);
    }
}
