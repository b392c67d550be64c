//! Matrices of order 2.

use crate::operators::{assigning, between, folding, operators, with_number};
use crate::square::{asked, given, square, swaps, views};
use crate::vector::not_below;
use crate::{ffi, Refusal, Vector2};

/// A matrix of order 2, as its columns.
///
/// ```
/// use migthumo::{Matrix2, Vector2};
///
/// let mut m = Matrix2::new(1.0, 0.0, 1.0, 1.0);
/// let n = Matrix2::from([[1.0, 1.0], [0.0, 1.0]]);
/// assert_eq!(m * n, Matrix2::new(2.0, 1.0, 1.0, 1.0));
/// assert_eq!(n * m, Matrix2::new(1.0, 1.0, 1.0, 2.0));
/// assert_eq!(m * Vector2::new(2.0, 3.0), Vector2::new(5.0, 3.0));
/// assert_eq!(m + n, Matrix2::new(2.0, 1.0, 1.0, 2.0));
/// assert_eq!(m - n, Matrix2::new(0.0, -1.0, 1.0, 0.0));
/// assert_eq!(-m, Matrix2::new(-1.0, 0.0, -1.0, -1.0));
/// assert_eq!(3.0 * m, m * 3.0);
/// assert_eq!(m / 2.0, Matrix2::new(0.5, 0.0, 0.5, 0.5));
/// assert_eq!(6.0 / Matrix2::new(1.0, 2.0, 3.0, 6.0), Matrix2::new(6.0, 3.0, 2.0, 1.0));
///
/// m[1][0] = 5.0;
/// assert_eq!(m.y, Vector2::new(5.0, 1.0));
/// assert_eq!(<[[f64; 2]; 2]>::from(m), [[1.0, 0.0], [5.0, 1.0]]);
/// assert_eq!(format!("{m:?}"), "Matrix2 [[1.0, 0.0], [5.0, 1.0]]");
/// ```
#[derive(Clone, Copy, PartialEq)]
#[repr(C)]
pub struct Matrix2 {
    /// Column 0.
    pub x: Vector2,
    /// Column 1.
    pub y: Vector2,
}

impl Matrix2 {
    /// The matrix of these entries, column by column.
    ///
    /// ```
    /// use migthumo::{Matrix2, Vector2};
    ///
    /// assert_eq!(Matrix2::new(1.0, 2.0, 3.0, 4.0).y, Vector2::new(3.0, 4.0));
    /// ```
    #[inline]
    #[must_use]
    pub const fn new(c0r0: f64, c0r1: f64, c1r0: f64, c1r1: f64) -> Self {
        Self::from_cols(Vector2::new(c0r0, c0r1), Vector2::new(c1r0, c1r1))
    }

    /// The matrix of these columns.
    ///
    /// ```
    /// use migthumo::{Matrix2, Vector2};
    ///
    /// let m = Matrix2::from_cols(Vector2::new(1.0, 2.0), Vector2::new(3.0, 4.0));
    /// assert_eq!(m, Matrix2::new(1.0, 2.0, 3.0, 4.0));
    /// ```
    #[inline]
    #[must_use]
    pub const fn from_cols(c0: Vector2, c1: Vector2) -> Self {
        Self { x: c0, y: c1 }
    }

    /// The value down the diagonal, 0 elsewhere.
    ///
    /// ```
    /// use migthumo::Matrix2;
    ///
    /// assert_eq!(Matrix2::from_value(3.0), Matrix2::new(3.0, 0.0, 0.0, 3.0));
    /// ```
    #[inline]
    #[must_use]
    pub const fn from_value(value: f64) -> Self {
        Self::new(value, 0.0, 0.0, value)
    }

    /// The vector down the diagonal, 0 elsewhere.
    ///
    /// ```
    /// use migthumo::{Matrix2, Vector2};
    ///
    /// assert_eq!(Matrix2::from_diagonal(Vector2::new(3.0, 4.0)), Matrix2::new(3.0, 0.0, 0.0, 4.0));
    /// ```
    #[inline]
    #[must_use]
    pub const fn from_diagonal(value: Vector2) -> Self {
        Self::new(value.x, 0.0, 0.0, value.y)
    }

    /// Scales both coordinates by the value.
    ///
    /// ```
    /// use migthumo::Matrix2;
    ///
    /// assert_eq!(Matrix2::from_scale(3.0), Matrix2::from_value(3.0));
    /// ```
    #[inline]
    #[must_use]
    pub const fn from_scale(value: f64) -> Self {
        Self::from_value(value)
    }

    /// The rotation of the plane with this sine and cosine.
    ///
    /// ```
    /// use migthumo::{Matrix2, Vector2};
    ///
    /// let quarter = Matrix2::from_angle(1.0, 0.0);
    /// assert_eq!(quarter * Vector2::new(1.0, 0.0), Vector2::new(0.0, 1.0));
    /// ```
    #[inline]
    #[must_use]
    pub fn from_angle(sine: f64, cosine: f64) -> Self {
        given(|out| ffi::from_angle(sine, cosine, out))
    }
}

square!(Matrix2, Vector2, 2, { x: 0, y: 1 }, 32768, "use migthumo::{Matrix2 as Matrix, Vector2 as Vector};");
swaps!(Matrix2, "use migthumo::Matrix2 as Matrix;");
operators!(Matrix2, Vector2, 2);
