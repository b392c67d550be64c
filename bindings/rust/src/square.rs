//! What the three orders share, written once. `$import` opens each example and names the order's types.

use crate::ffi::{self, Record};
use crate::Refusal;

/// The record with the numbers that `fill` writes, or its refusal.
#[inline]
pub(crate) fn asked<T: Record>(fill: impl FnOnce(&mut [f64]) -> Result<(), Refusal>) -> Result<T, Refusal> {
    let mut record = T::NAN;
    fill(ffi::numbers_mut(&mut record))?;
    Ok(record)
}

/// The record with the numbers that `fill` writes, where the order and every length are right: then the library is
/// proved to refuse nothing. A refusal would leave the record as it starts, with every number NaN.
#[inline]
pub(crate) fn given<T: Record>(fill: impl FnOnce(&mut [f64]) -> Result<(), Refusal>) -> T {
    let mut record = T::NAN;
    let _ = fill(ffi::numbers_mut(&mut record));
    record
}

/// What every order has; `$back` is the largest entry of a whole vector that is proved to come back.
macro_rules! square {
    (
        $Matrix:ident, $Vector:ident, $order:literal, { $($field:ident: $place:literal),+ }, $back:literal,
        $import:literal
    ) => {
        impl $Matrix {
            /// How many columns, and how many rows.
            pub const ORDER: usize = $order;

            /// Every entry 0.
            ///
            /// ```
            #[doc = $import]
            ///
            /// assert_eq!(Matrix::zero()[0][1], 0.0);
            /// ```
            #[inline]
            #[must_use]
            pub const fn zero() -> Self {
                Self::from_value(0.0)
            }

            /// 1 down the diagonal, 0 elsewhere.
            ///
            /// ```
            #[doc = $import]
            ///
            /// assert_eq!(Matrix::identity() * Matrix::from_value(3.0), Matrix::from_value(3.0));
            /// ```
            #[inline]
            #[must_use]
            pub const fn identity() -> Self {
                Self::from_value(1.0)
            }

            /// The identity, by its other name.
            ///
            /// ```
            #[doc = $import]
            ///
            /// assert_eq!(Matrix::one(), Matrix::identity());
            /// ```
            #[inline]
            #[must_use]
            pub const fn one() -> Self {
                Self::identity()
            }

            /// The determinant.
            ///
            /// ```
            #[doc = $import]
            ///
            /// assert_eq!(Matrix::identity().determinant(), 1.0);
            /// ```
            #[inline]
            #[must_use]
            pub fn determinant(&self) -> f64 {
                let [determinant] = given(|out| ffi::determinant(Self::ORDER, ffi::numbers(self), out));
                determinant
            }

            /// The inverse.
            ///
            /// ```
            #[doc = $import]
            /// use migthumo::Refusal;
            ///
            /// assert_eq!(Matrix::from_value(2.0).invert(), Ok(Matrix::from_value(0.5)));
            /// assert_eq!(Matrix::zero().invert(), Err(Refusal::Singular));
            /// ```
            ///
            /// # Errors
            ///
            /// [`Refusal::Singular`] where the determinant compares equal to zero. For whole entries up to 1024 in
            /// magnitude that is exactly where the matrix is flat. Elsewhere a determinant may underflow to zero though
            /// the matrix is not flat, and that of a flat matrix may be rounded to another number than zero.
            #[inline]
            pub fn invert(&self) -> Result<Self, Refusal> {
                asked(|out| ffi::invert(Self::ORDER, ffi::numbers(self), out))
            }

            /// Columns as rows.
            ///
            /// ```
            #[doc = $import]
            ///
            /// let mut m = Matrix::identity();
            /// m[0][1] = 7.0;
            /// assert_eq!(m.transpose()[1][0], 7.0);
            /// ```
            #[inline]
            #[must_use]
            pub fn transpose(&self) -> Self {
                given(|out| ffi::transpose(Self::ORDER, ffi::numbers(self), out))
            }

            /// Turns the matrix into its transpose.
            ///
            /// ```
            #[doc = $import]
            ///
            /// let mut m = Matrix::identity();
            /// m[0][1] = 7.0;
            /// m.transpose_self();
            /// assert_eq!(m[1][0], 7.0);
            /// ```
            #[inline]
            pub fn transpose_self(&mut self) {
                *self = self.transpose();
            }

            /// Puts another column in the place of column c, and answers the one that stood there.
            ///
            /// ```
            #[doc = $import]
            ///
            /// let mut m = Matrix::identity();
            /// let first = m[0];
            /// assert_eq!(m.replace_col(1, first), Matrix::identity()[1]);
            /// assert_eq!(m[1], m[0]);
            /// ```
            ///
            /// # Panics
            ///
            /// Where there is no column c, as `m[c]` does.
            #[inline]
            pub fn replace_col(&mut self, c: usize, column: $Vector) -> $Vector {
                core::mem::replace(&mut self[c], column)
            }

            /// Row r.
            ///
            /// ```
            #[doc = $import]
            /// use migthumo::{Place, Refusal};
            ///
            /// let mut m = Matrix::zero();
            /// m[0][1] = 7.0;
            /// assert_eq!(m.row(1)?[0], 7.0);
            /// assert_eq!(m.row(Matrix::ORDER), Err(Refusal::Row(Place::First)));
            /// # Ok::<(), Refusal>(())
            /// ```
            ///
            /// # Errors
            ///
            /// [`Refusal::Row(Place::First)`](Refusal::Row) unless the row number is below the order.
            #[inline]
            pub fn row(&self, r: usize) -> Result<$Vector, Refusal> {
                asked(|out| ffi::row(Self::ORDER, r, ffi::numbers(self), out))
            }

            /// The entries whose column is their row.
            ///
            /// ```
            #[doc = $import]
            ///
            /// assert_eq!(Matrix::from_value(3.0).diagonal(), [3.0; Matrix::ORDER].into());
            /// ```
            #[inline]
            #[must_use]
            pub fn diagonal(&self) -> $Vector {
                given(|out| ffi::diagonal(Self::ORDER, ffi::numbers(self), out))
            }

            /// The signed sum over all column orders, exact.
            ///
            /// ```
            #[doc = $import]
            /// use migthumo::Refusal;
            ///
            /// assert_eq!(Matrix::identity().signed_sum(), Ok(1));
            /// assert_eq!(Matrix::from_value(1025.0).signed_sum(), Err(Refusal::NotWhole));
            /// ```
            ///
            /// # Errors
            ///
            /// [`Refusal::NotWhole`] unless every entry is a whole number of magnitude at most 1024.
            #[inline]
            pub fn signed_sum(&self) -> Result<i64, Refusal> {
                let mut out = [0];
                ffi::signed_sum(Self::ORDER, ffi::numbers(self), &mut out)?;
                Ok(out[0])
            }

            /// Whether the magnitude of the signed sum is a power of two, 1 among them.
            ///
            /// Where it is, this is proved: [`invert`](Self::invert) gives the inverse, every entry of it is exactly the
            /// cofactor over the sum, and the matrix times the inverse compares equal to the identity, either way round.
            #[doc = concat!("A vector of whole numbers up to ", $back, " in magnitude, moved by the matrix and then by")]
            /// the inverse, compares equal to itself. Where it is not, nothing of that is said.
            ///
            /// ```
            #[doc = $import]
            /// use migthumo::Refusal;
            ///
            /// let m = Matrix::from_value(2.0);
            /// assert_eq!(m.undoable(), Ok(true));
            /// let inverse = m.invert()?;
            /// assert_eq!((m * inverse, inverse * m), (Matrix::identity(), Matrix::identity()));
            #[doc = concat!("let v = Vector::from([-", $back, ".0; Vector::LENGTH]);")]
            /// assert_eq!(inverse * (m * v), v);
            ///
            /// assert_eq!(Matrix::from_value(3.0).undoable(), Ok(false));
            /// assert_eq!(Matrix::from_value(0.5).undoable(), Err(Refusal::NotWhole));
            /// # Ok::<(), Refusal>(())
            /// ```
            ///
            /// # Errors
            ///
            /// [`Refusal::NotWhole`] as for the sum.
            #[inline]
            pub fn undoable(&self) -> Result<bool, Refusal> {
                let mut out = [0];
                ffi::undoable(Self::ORDER, ffi::numbers(self), &mut out)?;
                Ok(out[0] == 1)
            }

            /// The matrix times every vector, over numbers in a row: those of the vectors, one vector after the other.
            ///
            /// The flat views of vectors hand over slices of vectors.
            ///
            /// ```
            #[doc = $import]
            ///
            /// let vectors = [Vector::from([1.0; Vector::LENGTH]); 100];
            /// let mut moved = vectors;
            /// Matrix::from_value(2.0).move_vectors(Vector::flat(&vectors), Vector::flat_mut(&mut moved))?;
            /// assert_eq!(moved[99], Vector::from([2.0; Vector::LENGTH]));
            /// # Ok::<(), migthumo::Refusal>(())
            /// ```
            ///
            /// # Errors
            ///
            /// [`Refusal::InputLength`] unless the count of numbers is a multiple of the order,
            /// [`Refusal::OutputLength`] unless the output has as many.
            #[inline]
            pub fn move_vectors(&self, vectors: &[f64], out: &mut [f64]) -> Result<(), Refusal> {
                ffi::move_vectors(Self::ORDER, ffi::numbers(self), vectors, out)
            }

            /// Whether every entry is finite: no NaN and no infinity.
            ///
            /// ```
            #[doc = $import]
            ///
            /// assert!(Matrix::from_value(f64::MAX).is_finite());
            /// assert!(!Matrix::from_value(f64::NAN).is_finite());
            /// assert!(!Matrix::from_value(f64::INFINITY).is_finite());
            /// ```
            #[inline]
            #[must_use]
            pub const fn is_finite(&self) -> bool {
                $(self.$field.is_finite())&&+
            }

            /// Where the entries start, column by column.
            ///
            /// ```
            #[doc = $import]
            ///
            /// let m = Matrix::identity();
            /// let first: &[f64; Matrix::ORDER * Matrix::ORDER] = m.as_ref();
            /// assert_eq!(m.as_ptr(), first.as_ptr());
            /// ```
            #[inline]
            #[must_use]
            pub const fn as_ptr(&self) -> *const f64 {
                core::ptr::from_ref(self).cast()
            }

            /// Where the entries start, column by column, to be written to.
            ///
            /// ```
            #[doc = $import]
            ///
            /// let mut m = Matrix::identity();
            /// assert_eq!(m.as_mut_ptr().cast_const(), m.as_ptr());
            /// ```
            #[inline]
            #[must_use]
            pub const fn as_mut_ptr(&mut self) -> *mut f64 {
                core::ptr::from_mut(self).cast()
            }
        }

        impl From<[[f64; $order]; $order]> for $Matrix {
            #[inline]
            fn from([$($field),+]: [[f64; $order]; $order]) -> Self {
                Self { $($field: $field.into()),+ }
            }
        }

        impl From<$Matrix> for [[f64; $order]; $order] {
            #[inline]
            fn from(m: $Matrix) -> Self {
                [$(m.$field.into()),+]
            }
        }

        views!($Matrix, [[f64; $order]; $order]);
        views!($Matrix, [f64; $order * $order]);

        impl core::ops::Index<usize> for $Matrix {
            type Output = $Vector;

            #[inline]
            fn index(&self, column: usize) -> &$Vector {
                match column {
                    $($place => &self.$field,)+
                    _ => not_below(column, $order),
                }
            }
        }

        impl core::ops::IndexMut<usize> for $Matrix {
            #[inline]
            fn index_mut(&mut self, column: usize) -> &mut $Vector {
                match column {
                    $($place => &mut self.$field,)+
                    _ => not_below(column, $order),
                }
            }
        }

        impl core::fmt::Debug for $Matrix {
            fn fmt(&self, f: &mut core::fmt::Formatter<'_>) -> core::fmt::Result {
                f.write_str(concat!(stringify!($Matrix), " "))?;
                core::fmt::Debug::fmt(&<[[f64; $order]; $order]>::from(*self), f)
            }
        }
    };
}
pub(crate) use square;

/// A record seen as an array and an array as the record, lent or lent for change. Nothing is copied.
macro_rules! views {
    ($Record:ident, $Array:ty) => {
        impl AsRef<$Array> for $Record {
            #[inline]
            fn as_ref(&self) -> &$Array {
                ffi::view(self)
            }
        }

        impl AsMut<$Array> for $Record {
            #[inline]
            fn as_mut(&mut self) -> &mut $Array {
                ffi::view_mut(self)
            }
        }

        impl<'a> From<&'a $Array> for &'a $Record {
            #[inline]
            fn from(array: &'a $Array) -> Self {
                ffi::view(array)
            }
        }

        impl<'a> From<&'a mut $Array> for &'a mut $Record {
            #[inline]
            fn from(array: &'a mut $Array) -> Self {
                ffi::view_mut(array)
            }
        }
    };
}
pub(crate) use views;

/// The swaps of orders 2 and 3, by the library's swaps by value.
macro_rules! swaps {
    ($Matrix:ident, $import:literal) => {
        impl $Matrix {
            /// Exchanges rows a and b.
            ///
            /// ```
            #[doc = $import]
            /// use migthumo::{Place, Refusal};
            ///
            /// let mut m = Matrix::identity();
            /// m.swap_rows(0, 1)?;
            /// assert_eq!(m[0][1], 1.0);
            /// assert_eq!(m.swap_rows(5, 5), Err(Refusal::Row(Place::First)));
            /// assert_eq!(m.swap_rows(0, 5), Err(Refusal::Row(Place::Second)));
            /// # Ok::<(), Refusal>(())
            /// ```
            ///
            /// # Errors
            ///
            /// [`Refusal::Row(Place::First)`](Refusal::Row) unless a is below the order, then
            /// [`Refusal::Row(Place::Second)`](Refusal::Row) unless b is. Where it is refused, nothing is changed.
            #[inline]
            pub fn swap_rows(&mut self, a: usize, b: usize) -> Result<(), Refusal> {
                let before = *self;
                ffi::swap_rows(Self::ORDER, a, b, ffi::numbers(&before), ffi::numbers_mut(self))
            }

            /// Exchanges columns a and b.
            ///
            /// ```
            #[doc = $import]
            /// use migthumo::{Place, Refusal};
            ///
            /// let mut m = Matrix::identity();
            /// m.swap_columns(0, 1)?;
            /// assert_eq!(m[0][1], 1.0);
            /// assert_eq!(m.swap_columns(5, 5), Err(Refusal::Column(Place::First)));
            /// assert_eq!(m.swap_columns(0, 5), Err(Refusal::Column(Place::Second)));
            /// # Ok::<(), Refusal>(())
            /// ```
            ///
            /// # Errors
            ///
            /// [`Refusal::Column(Place::First)`](Refusal::Column) unless a is below the order, then
            /// [`Refusal::Column(Place::Second)`](Refusal::Column) unless b is. Where it is refused, nothing is
            /// changed.
            #[inline]
            pub fn swap_columns(&mut self, a: usize, b: usize) -> Result<(), Refusal> {
                let before = *self;
                ffi::swap_columns(Self::ORDER, a, b, ffi::numbers(&before), ffi::numbers_mut(self))
            }

            /// Exchanges the entries at two places, each a column and then a row.
            ///
            /// ```
            #[doc = $import]
            /// use migthumo::{Place, Refusal};
            ///
            /// let mut m = Matrix::identity();
            /// m.swap_elements((0, 0), (1, 0))?;
            /// assert_eq!((m[0][0], m[1][0]), (0.0, 1.0));
            /// assert_eq!(m.swap_elements((0, 0), (0, 5)), Err(Refusal::Row(Place::Second)));
            /// assert_eq!(m.swap_elements((5, 5), (5, 5)), Err(Refusal::Column(Place::First)));
            /// # Ok::<(), Refusal>(())
            /// ```
            ///
            /// # Errors
            ///
            /// For the first number that is not below the order: [`Refusal::Column(Place::First)`](Refusal::Column) for
            /// a's column, [`Refusal::Row(Place::First)`](Refusal::Row) for a's row,
            /// [`Refusal::Column(Place::Second)`](Refusal::Column) for b's column,
            /// [`Refusal::Row(Place::Second)`](Refusal::Row) for b's row. Where it is refused, nothing is changed.
            #[inline]
            pub fn swap_elements(&mut self, a: (usize, usize), b: (usize, usize)) -> Result<(), Refusal> {
                let before = *self;
                ffi::swap_elements(Self::ORDER, a.0, a.1, b.0, b.1, ffi::numbers(&before), ffi::numbers_mut(self))
            }
        }
    };
}
pub(crate) use swaps;

/// What orders 3 and 4 have: rotations of space, and moves of points.
macro_rules! space {
    ($Matrix:ident, $import:literal) => {
        impl $Matrix {
            /// The rotation around the x axis with this sine and cosine.
            ///
            /// ```
            #[doc = $import]
            ///
            /// let turn = Matrix::from_angle_x(1.0, 0.0);
            /// assert_eq!((turn[1][2], turn[2][1]), (1.0, -1.0));
            /// ```
            #[inline]
            #[must_use]
            pub fn from_angle_x(sine: f64, cosine: f64) -> Self {
                given(|out| ffi::from_angle_x(Self::ORDER, sine, cosine, out))
            }

            /// The rotation around the y axis with this sine and cosine.
            ///
            /// ```
            #[doc = $import]
            ///
            /// let turn = Matrix::from_angle_y(1.0, 0.0);
            /// assert_eq!((turn[2][0], turn[0][2]), (1.0, -1.0));
            /// ```
            #[inline]
            #[must_use]
            pub fn from_angle_y(sine: f64, cosine: f64) -> Self {
                given(|out| ffi::from_angle_y(Self::ORDER, sine, cosine, out))
            }

            /// The rotation around the z axis with this sine and cosine.
            ///
            /// ```
            #[doc = $import]
            ///
            /// let turn = Matrix::from_angle_z(1.0, 0.0);
            /// assert_eq!((turn[0][1], turn[1][0]), (1.0, -1.0));
            /// ```
            #[inline]
            #[must_use]
            pub fn from_angle_z(sine: f64, cosine: f64) -> Self {
                given(|out| ffi::from_angle_z(Self::ORDER, sine, cosine, out))
            }

            /// The rotation around an axis with this sine and cosine. The axis is not checked for length.
            ///
            /// ```
            #[doc = $import]
            /// use migthumo::Vector3;
            ///
            /// let turn = Matrix::from_axis_angle(Vector3::new(0.0, 0.0, 1.0), 1.0, 0.0);
            /// assert_eq!(turn, Matrix::from_angle_z(1.0, 0.0));
            /// ```
            #[inline]
            #[must_use]
            pub fn from_axis_angle(axis: Vector3, sine: f64, cosine: f64) -> Self {
                let Vector3 { x, y, z } = axis;
                given(|out| ffi::from_axis_angle(Self::ORDER, x, y, z, sine, cosine, out))
            }

            /// The matrix times every point extended by 1, without the last coordinate, over numbers in a row.
            ///
            /// A point is one number shorter than the order.
            ///
            /// ```
            #[doc = $import]
            ///
            /// let mut moved = [0.0; 6];
            /// Matrix::from_scale(3.0).move_points(&[1.0, 2.0, 3.0, 4.0, 5.0, 6.0], &mut moved)?;
            /// assert_eq!(moved, [3.0, 6.0, 9.0, 12.0, 15.0, 18.0]);
            /// # Ok::<(), migthumo::Refusal>(())
            /// ```
            ///
            /// # Errors
            ///
            /// [`Refusal::InputLength`] unless the count of numbers is a multiple of the order less 1,
            /// [`Refusal::OutputLength`] unless the output has as many.
            #[inline]
            pub fn move_points(&self, points: &[f64], out: &mut [f64]) -> Result<(), Refusal> {
                ffi::move_points(Self::ORDER, ffi::numbers(self), points, out)
            }
        }
    };
}
pub(crate) use space;

#[cfg(test)]
mod tests {
    use super::*;
    use crate::{Matrix2, Matrix3, Matrix4, Vector3};

    /// What a library would answer that refuses where it never does.
    fn refuse(_: &mut [f64]) -> Result<(), Refusal> {
        Err(Refusal::Unknown(99))
    }

    /// Whether a record has as many numbers as it should, and all are NaN.
    fn all_nan<T: Record>(record: T) -> bool {
        let numbers = ffi::numbers(&record);
        numbers.len() == T::NUMBERS && numbers.iter().all(|number| number.is_nan())
    }

    #[test]
    fn what_is_refused_is_nan() {
        assert!(all_nan(given::<Matrix2>(refuse)) && all_nan(given::<Matrix3>(refuse)));
        assert!(all_nan(given::<Matrix4>(refuse)) && all_nan(given::<Vector3>(refuse)));
        assert!(all_nan(given::<[f64; 1]>(refuse)));
        assert_eq!(asked::<Matrix4>(refuse), Err(Refusal::Unknown(99)));
    }
}
