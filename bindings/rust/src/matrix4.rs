//! Matrices of order 4.

use crate::operators::{assigning, between, folding, operators, with_number};
use crate::square::{asked, given, space, square, views};
use crate::vector::not_below;
use crate::{ffi, Matrix2, Matrix3, Refusal, Vector3, Vector4};

/// A matrix of order 4, as its columns.
///
/// ```
/// use migthumo::{Matrix4, Vector3, Vector4};
///
/// let mut m = Matrix4::from_translation(Vector3::new(4.0, 6.0, 8.0));
/// let n = Matrix4::from_nonuniform_scale(2.0, 4.0, 8.0);
/// assert_eq!((m * n).w, Vector4::new(4.0, 6.0, 8.0, 1.0));
/// assert_eq!((n * m).w, Vector4::new(8.0, 24.0, 64.0, 1.0));
/// assert_eq!(m * Vector4::new(1.0, 2.0, 3.0, 1.0), Vector4::new(5.0, 8.0, 11.0, 1.0));
/// assert_eq!((m + n).diagonal(), Vector4::new(3.0, 5.0, 9.0, 2.0));
/// assert_eq!((m - n).diagonal(), Vector4::new(-1.0, -3.0, -7.0, 0.0));
/// assert_eq!(-n, Matrix4::from_diagonal(Vector4::new(-2.0, -4.0, -8.0, -1.0)));
/// assert_eq!(3.0 * m, m * 3.0);
/// assert_eq!(n / 2.0, Matrix4::from_diagonal(Vector4::new(1.0, 2.0, 4.0, 0.5)));
/// assert_eq!((8.0 / n).diagonal(), Vector4::new(4.0, 2.0, 1.0, 8.0));
///
/// m[3][0] = 5.0;
/// assert_eq!(m.w, Vector4::new(5.0, 6.0, 8.0, 1.0));
/// assert_eq!(<[[f64; 4]; 4]>::from(m)[3], [5.0, 6.0, 8.0, 1.0]);
/// assert_eq!(Matrix4::from(<[[f64; 4]; 4]>::from(m)), m);
/// ```
#[derive(Clone, Copy, PartialEq)]
#[repr(C)]
pub struct Matrix4 {
    /// Column 0.
    pub x: Vector4,
    /// Column 1.
    pub y: Vector4,
    /// Column 2.
    pub z: Vector4,
    /// Column 3.
    pub w: Vector4,
}

impl Matrix4 {
    /// The matrix of these entries, column by column.
    ///
    /// ```
    /// use migthumo::{Matrix4, Vector4};
    ///
    /// let m = Matrix4::new(
    ///     1.0, 2.0, 3.0, 4.0,
    ///     5.0, 6.0, 7.0, 8.0,
    ///     9.0, 10.0, 11.0, 12.0,
    ///     13.0, 14.0, 15.0, 16.0,
    /// );
    /// assert_eq!(m.y, Vector4::new(5.0, 6.0, 7.0, 8.0));
    /// ```
    #[inline]
    #[must_use]
    #[rustfmt::skip]
    #[allow(clippy::too_many_arguments)]
    pub const fn new(
        c0r0: f64, c0r1: f64, c0r2: f64, c0r3: f64,
        c1r0: f64, c1r1: f64, c1r2: f64, c1r3: f64,
        c2r0: f64, c2r1: f64, c2r2: f64, c2r3: f64,
        c3r0: f64, c3r1: f64, c3r2: f64, c3r3: f64,
    ) -> Self {
        Self::from_cols(
            Vector4::new(c0r0, c0r1, c0r2, c0r3),
            Vector4::new(c1r0, c1r1, c1r2, c1r3),
            Vector4::new(c2r0, c2r1, c2r2, c2r3),
            Vector4::new(c3r0, c3r1, c3r2, c3r3),
        )
    }

    /// The matrix of these columns.
    ///
    /// ```
    /// use migthumo::{Matrix4, Vector4};
    ///
    /// let c = Vector4::new(4.0, 5.0, 6.0, 7.0);
    /// assert_eq!(Matrix4::from_cols(c, c, c, c)[2][0], 4.0);
    /// ```
    #[inline]
    #[must_use]
    pub const fn from_cols(c0: Vector4, c1: Vector4, c2: Vector4, c3: Vector4) -> Self {
        Self { x: c0, y: c1, z: c2, w: c3 }
    }

    /// The value down the diagonal, 0 elsewhere.
    ///
    /// ```
    /// use migthumo::{Matrix4, Vector4};
    ///
    /// assert_eq!(Matrix4::from_value(3.0), Matrix4::from_diagonal(Vector4::new(3.0, 3.0, 3.0, 3.0)));
    /// ```
    #[inline]
    #[must_use]
    pub const fn from_value(value: f64) -> Self {
        Self::from_diagonal(Vector4::new(value, value, value, value))
    }

    /// The vector down the diagonal, 0 elsewhere.
    ///
    /// ```
    /// use migthumo::{Matrix4, Vector4};
    ///
    /// let m = Matrix4::from_diagonal(Vector4::new(3.0, 4.0, 5.0, 6.0));
    /// assert_eq!((m[1][1], m[1][2]), (4.0, 0.0));
    /// ```
    #[inline]
    #[must_use]
    #[rustfmt::skip]
    pub const fn from_diagonal(value: Vector4) -> Self {
        Self::new(
            value.x, 0.0, 0.0, 0.0,
            0.0, value.y, 0.0, 0.0,
            0.0, 0.0, value.z, 0.0,
            0.0, 0.0, 0.0, value.w,
        )
    }

    /// Moves points of space by the vector.
    ///
    /// ```
    /// use migthumo::{Matrix4, Vector3, Vector4};
    ///
    /// assert_eq!(Matrix4::from_translation(Vector3::new(4.0, 6.0, 8.0)).w, Vector4::new(4.0, 6.0, 8.0, 1.0));
    /// ```
    #[inline]
    #[must_use]
    #[rustfmt::skip]
    pub const fn from_translation(v: Vector3) -> Self {
        Self::new(
            1.0, 0.0, 0.0, 0.0,
            0.0, 1.0, 0.0, 0.0,
            0.0, 0.0, 1.0, 0.0,
            v.x, v.y, v.z, 1.0,
        )
    }

    /// Scales the three coordinates of space by the value.
    ///
    /// ```
    /// use migthumo::{Matrix4, Vector4};
    ///
    /// assert_eq!(Matrix4::from_scale(3.0), Matrix4::from_diagonal(Vector4::new(3.0, 3.0, 3.0, 1.0)));
    /// ```
    #[inline]
    #[must_use]
    pub const fn from_scale(value: f64) -> Self {
        Self::from_nonuniform_scale(value, value, value)
    }

    /// Scales each coordinate of space by its own value.
    ///
    /// ```
    /// use migthumo::{Matrix4, Vector4};
    ///
    /// let m = Matrix4::from_nonuniform_scale(3.0, 4.0, 5.0);
    /// assert_eq!(m, Matrix4::from_diagonal(Vector4::new(3.0, 4.0, 5.0, 1.0)));
    /// ```
    #[inline]
    #[must_use]
    pub const fn from_nonuniform_scale(x: f64, y: f64, z: f64) -> Self {
        Self::from_diagonal(Vector4::new(x, y, z, 1.0))
    }

    /// Exchanges rows a and b in place.
    ///
    /// ```
    /// use migthumo::{Matrix4, Place, Refusal};
    ///
    /// let mut m = Matrix4::identity();
    /// m.swap_rows(0, 3)?;
    /// assert_eq!((m[0][3], m[3][0]), (1.0, 1.0));
    /// assert_eq!(m.swap_rows(5, 5), Err(Refusal::Row(Place::First)));
    /// # Ok::<(), Refusal>(())
    /// ```
    ///
    /// # Errors
    ///
    /// [`Refusal::Row(Place::First)`](Refusal::Row) unless a is below 4, then
    /// [`Refusal::Row(Place::Second)`](Refusal::Row) unless b is. Where it is refused, nothing is changed.
    #[inline]
    pub fn swap_rows(&mut self, a: usize, b: usize) -> Result<(), Refusal> {
        ffi::swap_rows_mut(self, a, b)
    }

    /// Exchanges columns a and b in place.
    ///
    /// ```
    /// use migthumo::{Matrix4, Place, Refusal};
    ///
    /// let mut m = Matrix4::identity();
    /// m.swap_columns(0, 3)?;
    /// assert_eq!((m[0][3], m[3][0]), (1.0, 1.0));
    /// assert_eq!(m.swap_columns(0, 4), Err(Refusal::Column(Place::Second)));
    /// # Ok::<(), Refusal>(())
    /// ```
    ///
    /// # Errors
    ///
    /// [`Refusal::Column(Place::First)`](Refusal::Column) unless a is below 4, then
    /// [`Refusal::Column(Place::Second)`](Refusal::Column) unless b is. Where it is refused, nothing is changed.
    #[inline]
    pub fn swap_columns(&mut self, a: usize, b: usize) -> Result<(), Refusal> {
        ffi::swap_columns_mut(self, a, b)
    }

    /// Exchanges in place the entries at two places, each a column and then a row.
    ///
    /// ```
    /// use migthumo::{Matrix4, Place, Refusal};
    ///
    /// let mut m = Matrix4::identity();
    /// m.swap_elements((0, 0), (3, 1))?;
    /// assert_eq!((m[0][0], m[3][1]), (0.0, 1.0));
    /// assert_eq!(m.swap_elements((0, 0), (3, 4)), Err(Refusal::Row(Place::Second)));
    /// # Ok::<(), Refusal>(())
    /// ```
    ///
    /// # Errors
    ///
    /// For the first number that is not below 4: [`Refusal::Column(Place::First)`](Refusal::Column) for a's column,
    /// [`Refusal::Row(Place::First)`](Refusal::Row) for a's row, [`Refusal::Column(Place::Second)`](Refusal::Column)
    /// for b's column, [`Refusal::Row(Place::Second)`](Refusal::Row) for b's row. Where it is refused, nothing is
    /// changed.
    #[inline]
    pub fn swap_elements(&mut self, a: (usize, usize), b: (usize, usize)) -> Result<(), Refusal> {
        ffi::swap_elements_mut(self, a.0, a.1, b.0, b.1)
    }
}

/// The matrix in the top left corner of the identity.
///
/// ```
/// use migthumo::{Matrix2, Matrix4};
///
/// let m = Matrix4::from(Matrix2::new(1.0, 2.0, 3.0, 4.0));
/// assert_eq!((m[1][0], m[1][1], m[2][2]), (3.0, 4.0, 1.0));
/// ```
impl From<Matrix2> for Matrix4 {
    #[inline]
    fn from(m: Matrix2) -> Self {
        given(|out| ffi::embed(2, 4, ffi::numbers(&m), out))
    }
}

/// The matrix in the top left corner of the identity.
///
/// ```
/// use migthumo::{Matrix3, Matrix4, Vector4};
///
/// let m = Matrix4::from(Matrix3::from_value(3.0));
/// assert_eq!(m, Matrix4::from_diagonal(Vector4::new(3.0, 3.0, 3.0, 1.0)));
/// ```
impl From<Matrix3> for Matrix4 {
    #[inline]
    fn from(m: Matrix3) -> Self {
        given(|out| ffi::embed(3, 4, ffi::numbers(&m), out))
    }
}

square!(Matrix4, Vector4, 4, { x: 0, y: 1, z: 2, w: 3 }, 64, "use migthumo::{Matrix4 as Matrix, Vector4 as Vector};");
space!(Matrix4, "use migthumo::Matrix4 as Matrix;");
operators!(Matrix4, Vector4, 4);
