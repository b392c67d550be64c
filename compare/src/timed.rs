//! What is timed: each operation on both sides, its inputs read from memory and its results kept from being left out.

use crate::classes::{Class, Shape};
use crate::entries::Take;
use crate::random::Random;
use cgmath::prelude::*;
use migthumo::{ffi, Refusal};
use std::hint::black_box;

/// How many inputs an operation goes through, over and over.
pub const INPUTS: usize = 64;

/// Does an operation as often as it is told.
pub type Work = Box<dyn FnMut(usize)>;

/// An operation of an order, how many vectors it moves at once, and how its two sides are made: cgmath's, then ours.
pub struct Timed {
    pub name: &'static str,
    pub order: usize,
    pub vectors: usize,
    pub sides: fn() -> [Work; 2],
}

/// Numbers of everyday size, the same at each call.
fn drawn(order: usize, matrices: usize, numbers: usize) -> impl FnMut() -> Vec<f64> {
    let mut random = Random::new();
    move || Class::Fraction.draw(&mut random, order, Shape { matrices, numbers })
}

/// An operation on one input after the other.
fn single<I: 'static, O: 'static>(
    mut numbers: impl FnMut() -> Vec<f64>,
    take: impl Fn(&[f64]) -> I,
    does: impl Fn(&I) -> O + 'static,
) -> Work {
    let inputs: [I; INPUTS] = std::array::from_fn(|_| take(&numbers()));
    Box::new(move |times| {
        for number in 0..times {
            let result = does(black_box(&inputs[number % INPUTS]));
            black_box(&result);
        }
    })
}

/// An operation on one flat input after the other, into an output that is kept from call to call.
fn kept<const OUTPUT: usize>(
    mut numbers: impl FnMut() -> Vec<f64>,
    does: impl Fn(&[f64], &mut [f64]) -> Result<(), Refusal> + 'static,
) -> Work {
    let inputs: [Vec<f64>; INPUTS] = std::array::from_fn(|_| numbers());
    let mut out = [0.0; OUTPUT];
    Box::new(move |times| {
        for number in 0..times {
            does(black_box(&inputs[number % INPUTS]), black_box(&mut out)).unwrap();
        }
    })
}

/// A move of many vectors at once.
fn bulk<M: 'static, V: Clone + 'static>(m: M, vectors: Vec<V>, does: impl Fn(&M, &[V], &mut [V]) + 'static) -> Work {
    let mut out = vectors.clone();
    Box::new(move |times| {
        for _ in 0..times {
            does(black_box(&m), black_box(&vectors), black_box(&mut out));
        }
    })
}

/// A matrix and as many vectors of this length, all flat.
fn flat(order: usize, length: usize, vectors: usize) -> (Vec<f64>, Vec<f64>) {
    let x = drawn(order, 1, length * vectors)();
    let (m, flat) = x.split_at(order * order);
    (m.to_vec(), flat.to_vec())
}

/// Flat vectors as cgmath's.
fn vectors<V: Take>(length: usize, flat: &[f64]) -> Vec<V> {
    flat.chunks(length).map(V::take).collect()
}

/// The single operations of an order.
macro_rules! singles {
    ($n:expr, $Matrix:ident, $Vector:ident) => {
        [
            Timed {
                name: "determinant",
                order: $n,
                vectors: 1,
                sides: || {
                    [
                        single(drawn($n, 1, 0), cgmath::$Matrix::<f64>::take, |m| m.determinant()),
                        single(drawn($n, 1, 0), migthumo::$Matrix::take, |m| m.determinant()),
                    ]
                },
            },
            Timed {
                name: "invert",
                order: $n,
                vectors: 1,
                sides: || {
                    [
                        single(drawn($n, 1, 0), cgmath::$Matrix::<f64>::take, |m| m.invert()),
                        single(drawn($n, 1, 0), migthumo::$Matrix::take, |m| m.invert()),
                    ]
                },
            },
            Timed {
                name: "product",
                order: $n,
                vectors: 1,
                sides: || {
                    let theirs = |x: &[f64]| [x, &x[$n * $n..]].map(cgmath::$Matrix::<f64>::take);
                    let ours = |x: &[f64]| [x, &x[$n * $n..]].map(migthumo::$Matrix::take);
                    [single(drawn($n, 2, 0), theirs, |[a, b]| a * b), single(drawn($n, 2, 0), ours, |[a, b]| a * b)]
                },
            },
            Timed {
                name: "times_vector",
                order: $n,
                vectors: 1,
                sides: || {
                    let theirs =
                        |x: &[f64]| (cgmath::$Matrix::<f64>::take(x), cgmath::$Vector::<f64>::take(&x[$n * $n..]));
                    let ours = |x: &[f64]| (migthumo::$Matrix::take(x), migthumo::$Vector::take(&x[$n * $n..]));
                    [single(drawn($n, 1, $n), theirs, |(m, v)| m * v), single(drawn($n, 1, $n), ours, |(m, v)| m * v)]
                },
            },
        ]
    };
}

/// The same operations, ours over flat slices into an output that is kept: without a record that is made and copied.
macro_rules! flats {
    ($n:expr, $Matrix:ident, $Vector:ident) => {
        [
            Timed {
                name: "determinant, flat",
                order: $n,
                vectors: 1,
                sides: || {
                    let ours = kept::<1>(drawn($n, 1, 0), |m, out| ffi::determinant($n, m, out));
                    [single(drawn($n, 1, 0), cgmath::$Matrix::<f64>::take, |m| m.determinant()), ours]
                },
            },
            Timed {
                name: "invert, flat",
                order: $n,
                vectors: 1,
                sides: || {
                    let ours = kept::<{ $n * $n }>(drawn($n, 1, 0), |m, out| ffi::invert($n, m, out));
                    [single(drawn($n, 1, 0), cgmath::$Matrix::<f64>::take, |m| m.invert()), ours]
                },
            },
            Timed {
                name: "product, flat",
                order: $n,
                vectors: 1,
                sides: || {
                    let theirs = |x: &[f64]| [x, &x[$n * $n..]].map(cgmath::$Matrix::<f64>::take);
                    let ours = kept::<{ $n * $n }>(drawn($n, 2, 0), |x, out| {
                        let (a, b) = x.split_at($n * $n);
                        ffi::product($n, a, b, out)
                    });
                    [single(drawn($n, 2, 0), theirs, |[a, b]| a * b), ours]
                },
            },
            Timed {
                name: "times_vector, flat",
                order: $n,
                vectors: 1,
                sides: || {
                    let theirs =
                        |x: &[f64]| (cgmath::$Matrix::<f64>::take(x), cgmath::$Vector::<f64>::take(&x[$n * $n..]));
                    let ours = kept::<$n>(drawn($n, 1, $n), |x, out| {
                        let (m, v) = x.split_at($n * $n);
                        ffi::move_vectors($n, m, v, out)
                    });
                    [single(drawn($n, 1, $n), theirs, |(m, v)| m * v), ours]
                },
            },
        ]
    };
}

/// A move of vectors of an order.
macro_rules! move_vectors {
    ($vectors:expr, $n:expr, $Matrix:ident, $Vector:ident) => {
        Timed {
            name: "move_vectors",
            order: $n,
            vectors: $vectors,
            sides: || {
                let (m, x) = flat($n, $n, $vectors);
                let theirs = bulk(cgmath::$Matrix::take(&m), vectors($n, &x), |m, vectors, out| {
                    for (vector, out) in vectors.iter().zip(out) {
                        let vector: &cgmath::$Vector<f64> = vector;
                        *out = m * vector;
                    }
                });
                let ours =
                    bulk(migthumo::$Matrix::take(&m), x, |m, vectors, out| m.move_vectors(vectors, out).unwrap());
                [theirs, ours]
            },
        }
    };
}

/// A move of points of an order.
macro_rules! move_points {
    ($vectors:expr, $n:expr, $Matrix:ident, $Vector:ident) => {
        Timed {
            name: "move_points",
            order: $n,
            vectors: $vectors,
            sides: || {
                let (m, x) = flat($n, $n - 1, $vectors);
                let theirs = bulk(cgmath::$Matrix::take(&m), vectors($n - 1, &x), |m, points, out| {
                    for (point, out) in points.iter().zip(out) {
                        let point: &cgmath::$Vector<f64> = point;
                        *out = (m * point.extend(1.0)).truncate();
                    }
                });
                let ours = bulk(migthumo::$Matrix::take(&m), x, |m, points, out| m.move_points(points, out).unwrap());
                [theirs, ours]
            },
        }
    };
}

/// The bulk moves of as many vectors or points.
macro_rules! moves {
    ($vectors:expr) => {
        [
            move_vectors!($vectors, 2, Matrix2, Vector2),
            move_vectors!($vectors, 3, Matrix3, Vector3),
            move_vectors!($vectors, 4, Matrix4, Vector4),
            move_points!($vectors, 3, Matrix3, Vector2),
            move_points!($vectors, 4, Matrix4, Vector3),
        ]
    };
}

/// The loop alone, which is in every other line too.
const NOTHING: Timed = Timed {
    name: "loop alone",
    order: 2,
    vectors: 1,
    sides: || [single(drawn(2, 1, 0), |x| x[0], |_| ()), single(drawn(2, 1, 0), |x| x[0], |_| ())],
};

/// All that is timed.
pub fn all() -> Vec<Timed> {
    let mut all = vec![NOTHING];
    all.extend(singles!(2, Matrix2, Vector2));
    all.extend(singles!(3, Matrix3, Vector3));
    all.extend(singles!(4, Matrix4, Vector4));
    all.extend(flats!(2, Matrix2, Vector2));
    all.extend(flats!(3, Matrix3, Vector3));
    all.extend(flats!(4, Matrix4, Vector4));
    all.extend(moves!(1_000));
    all.extend(moves!(1_000_000));
    all
}
