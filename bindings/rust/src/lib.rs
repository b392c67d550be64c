//! Matrices of order 2, 3 and 4 over `f64`, in cgmath's words, with proved arithmetic.
//!
//! Every sum, product, determinant and inverse is worked out by libmigthumo.a, whose functions are proved to follow
//! IEEE 754 operation by operation; this crate only carries numbers there and back. Matrices are column-major:
//! `m[c][r]` is column c, row r. Where cgmath answers `None` or panics, a method here answers a [`Refusal`]; the one
//! panic that is left is cgmath's own, that of `m[c]`, `v[i]` and `m.replace_col(c, v)` at a place that is not there.
//!
//! ```
//! use migthumo::{Matrix2, Refusal, Vector2};
//!
//! let accent = Matrix2::new(3.0, 5.0, 1.0, 2.0);
//! let undo = accent.invert()?;
//! assert_eq!(undo, Matrix2::new(2.0, -5.0, -1.0, 3.0));
//! assert_eq!(undo * (accent * Vector2::new(7.0, 9.0)), Vector2::new(7.0, 9.0));
//! assert_eq!(Matrix2::new(1.0, 2.0, 2.0, 4.0).invert(), Err(Refusal::Singular));
//! # Ok::<(), Refusal>(())
//! ```
//!
//! Operators, and methods that answer no `Result`, hand over the right order and the right lengths, which the library
//! is proved never to refuse; if it did, every number of the answer would be NaN.
//!
//! Entries are plain numbers. Who holds scales as whole sixty-fourths holds offsets as sixty-fourths too; the last row
//! stays 0, 0, 1, and what comes out is in sixty-fourths:
//!
//! ```
//! use migthumo::{Matrix3, Vector3};
//!
//! // Scaled by a half, 10 to the right and 3 down.
//! let place = Matrix3::new(32.0, 0.0, 0.0, 0.0, 32.0, 0.0, 640.0, -192.0, 1.0);
//! let placed = place * Vector3::new(2.0, 4.0, 1.0);
//! assert_eq!(placed, Vector3::new(704.0, -64.0, 1.0)); // the point (11, -1)
//! assert_eq!(place.invert()? * placed, Vector3::new(2.0, 4.0, 1.0));
//! # Ok::<(), migthumo::Refusal>(())
//! ```
//!
//! An accented letter of a font borrows its accent through such a matrix. [`Component::read`] reads it from the
//! letter's record in an OpenType glyf table, with offsets in font units and scales as plain numbers, each of them
//! exact.
//!
//! The same operations over flat slices, with the order as a number, are the functions of [`ffi`].

#![no_std]
#![deny(unsafe_code, missing_docs)]
// Every number comes from the library.
#![deny(clippy::float_arithmetic)]
// Nothing panics but `not_below`.
#![deny(clippy::panic, clippy::unwrap_used, clippy::expect_used, clippy::indexing_slicing, clippy::unreachable)]
#![deny(clippy::arithmetic_side_effects)]
#![deny(clippy::missing_errors_doc, clippy::must_use_candidate, clippy::undocumented_unsafe_blocks)]

mod component;
#[allow(unsafe_code)]
pub mod ffi;
mod matrix2;
mod matrix3;
mod matrix4;
mod operators;
mod refusal;
mod square;
mod vector;
mod version;

pub use component::Component;
pub use matrix2::Matrix2;
pub use matrix3::Matrix3;
pub use matrix4::Matrix4;
pub use refusal::{Place, Refusal, UnknownAnswer};
pub use vector::{Vector2, Vector3, Vector4};
pub use version::VERSION;

// The README's examples are run with the others.
#[cfg(doctest)]
#[doc = include_str!("../README.md")]
struct Readme;
