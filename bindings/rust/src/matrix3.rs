//! Matrices of order 3.

use crate::operators::{assigning, between, folding, operators, with_number};
use crate::square::{asked, given, space, square, swaps, views};
use crate::vector::not_below;
use crate::{ffi, Matrix2, Refusal, Vector2, Vector3};

/// A matrix of order 3, as its columns.
///
/// ```
/// use migthumo::{Matrix3, Vector2, Vector3};
///
/// let mut m = Matrix3::from_translation(Vector2::new(10.0, 20.0));
/// let n = Matrix3::from_nonuniform_scale(2.0, 4.0);
/// assert_eq!(m * n, Matrix3::from([[2.0, 0.0, 0.0], [0.0, 4.0, 0.0], [10.0, 20.0, 1.0]]));
/// assert_eq!(n * m, Matrix3::from([[2.0, 0.0, 0.0], [0.0, 4.0, 0.0], [20.0, 80.0, 1.0]]));
/// assert_eq!(m * Vector3::new(1.0, 2.0, 1.0), Vector3::new(11.0, 22.0, 1.0));
/// assert_eq!(m + n, Matrix3::from([[3.0, 0.0, 0.0], [0.0, 5.0, 0.0], [10.0, 20.0, 2.0]]));
/// assert_eq!(m - n, Matrix3::from([[-1.0, 0.0, 0.0], [0.0, -3.0, 0.0], [10.0, 20.0, 0.0]]));
/// assert_eq!(-n, Matrix3::from_diagonal(Vector3::new(-2.0, -4.0, -1.0)));
/// assert_eq!(3.0 * m, m * 3.0);
/// assert_eq!(n / 2.0, Matrix3::from_diagonal(Vector3::new(1.0, 2.0, 0.5)));
/// assert_eq!((4.0 / n).diagonal(), Vector3::new(2.0, 1.0, 4.0));
///
/// m[2][0] = 5.0;
/// assert_eq!(m.z, Vector3::new(5.0, 20.0, 1.0));
/// assert_eq!(<[[f64; 3]; 3]>::from(m), [[1.0, 0.0, 0.0], [0.0, 1.0, 0.0], [5.0, 20.0, 1.0]]);
/// assert_eq!(format!("{m:?}"), "Matrix3 [[1.0, 0.0, 0.0], [0.0, 1.0, 0.0], [5.0, 20.0, 1.0]]");
/// ```
#[derive(Clone, Copy, PartialEq)]
#[repr(C)]
pub struct Matrix3 {
    /// Column 0.
    pub x: Vector3,
    /// Column 1.
    pub y: Vector3,
    /// Column 2.
    pub z: Vector3,
}

impl Matrix3 {
    /// The matrix of these entries, column by column.
    ///
    /// ```
    /// use migthumo::{Matrix3, Vector3};
    ///
    /// let m = Matrix3::new(1.0, 2.0, 3.0, 4.0, 5.0, 6.0, 7.0, 8.0, 9.0);
    /// assert_eq!(m.y, Vector3::new(4.0, 5.0, 6.0));
    /// ```
    #[inline]
    #[must_use]
    #[rustfmt::skip]
    #[allow(clippy::too_many_arguments)]
    pub const fn new(
        c0r0: f64, c0r1: f64, c0r2: f64,
        c1r0: f64, c1r1: f64, c1r2: f64,
        c2r0: f64, c2r1: f64, c2r2: f64,
    ) -> Self {
        Self::from_cols(
            Vector3::new(c0r0, c0r1, c0r2),
            Vector3::new(c1r0, c1r1, c1r2),
            Vector3::new(c2r0, c2r1, c2r2),
        )
    }

    /// The matrix of these columns.
    ///
    /// ```
    /// use migthumo::{Matrix3, Vector3};
    ///
    /// let c1 = Vector3::new(4.0, 5.0, 6.0);
    /// assert_eq!(Matrix3::from_cols(c1, c1, c1)[2][0], 4.0);
    /// ```
    #[inline]
    #[must_use]
    pub const fn from_cols(c0: Vector3, c1: Vector3, c2: Vector3) -> Self {
        Self { x: c0, y: c1, z: c2 }
    }

    /// The value down the diagonal, 0 elsewhere.
    ///
    /// ```
    /// use migthumo::{Matrix3, Vector3};
    ///
    /// assert_eq!(Matrix3::from_value(3.0), Matrix3::from_diagonal(Vector3::new(3.0, 3.0, 3.0)));
    /// ```
    #[inline]
    #[must_use]
    pub const fn from_value(value: f64) -> Self {
        Self::from_diagonal(Vector3::new(value, value, value))
    }

    /// The vector down the diagonal, 0 elsewhere.
    ///
    /// ```
    /// use migthumo::{Matrix3, Vector3};
    ///
    /// let m = Matrix3::from_diagonal(Vector3::new(3.0, 4.0, 5.0));
    /// assert_eq!(m, Matrix3::from([[3.0, 0.0, 0.0], [0.0, 4.0, 0.0], [0.0, 0.0, 5.0]]));
    /// ```
    #[inline]
    #[must_use]
    #[rustfmt::skip]
    pub const fn from_diagonal(value: Vector3) -> Self {
        Self::new(
            value.x, 0.0, 0.0,
            0.0, value.y, 0.0,
            0.0, 0.0, value.z,
        )
    }

    /// Moves points of the plane by the vector.
    ///
    /// ```
    /// use migthumo::{Matrix3, Vector2, Vector3};
    ///
    /// assert_eq!(Matrix3::from_translation(Vector2::new(10.0, 20.0)).z, Vector3::new(10.0, 20.0, 1.0));
    /// ```
    #[inline]
    #[must_use]
    #[rustfmt::skip]
    pub const fn from_translation(v: Vector2) -> Self {
        Self::new(
            1.0, 0.0, 0.0,
            0.0, 1.0, 0.0,
            v.x, v.y, 1.0,
        )
    }

    /// Scales both coordinates of the plane by the value.
    ///
    /// ```
    /// use migthumo::{Matrix3, Vector3};
    ///
    /// assert_eq!(Matrix3::from_scale(3.0), Matrix3::from_diagonal(Vector3::new(3.0, 3.0, 1.0)));
    /// ```
    #[inline]
    #[must_use]
    pub const fn from_scale(value: f64) -> Self {
        Self::from_nonuniform_scale(value, value)
    }

    /// Scales each coordinate of the plane by its own value.
    ///
    /// ```
    /// use migthumo::{Matrix3, Vector3};
    ///
    /// assert_eq!(Matrix3::from_nonuniform_scale(3.0, 4.0), Matrix3::from_diagonal(Vector3::new(3.0, 4.0, 1.0)));
    /// ```
    #[inline]
    #[must_use]
    pub const fn from_nonuniform_scale(x: f64, y: f64) -> Self {
        Self::from_diagonal(Vector3::new(x, y, 1.0))
    }
}

/// The matrix in the top left corner of the identity.
///
/// ```
/// use migthumo::{Matrix2, Matrix3};
///
/// let m = Matrix3::from(Matrix2::new(1.0, 2.0, 3.0, 4.0));
/// assert_eq!(m, Matrix3::new(1.0, 2.0, 0.0, 3.0, 4.0, 0.0, 0.0, 0.0, 1.0));
/// ```
impl From<Matrix2> for Matrix3 {
    #[inline]
    fn from(m: Matrix2) -> Self {
        given(|out| ffi::embed(2, 3, ffi::numbers(&m), out))
    }
}

square!(Matrix3, Vector3, 3, { x: 0, y: 1, z: 2 }, 32768, "use migthumo::{Matrix3 as Matrix, Vector3 as Vector};");
swaps!(Matrix3, "use migthumo::Matrix3 as Matrix;");
space!(Matrix3, "use migthumo::Matrix3 as Matrix;");
operators!(Matrix3, Vector3, 3);
