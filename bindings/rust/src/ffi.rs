//! The library's own functions, over flat column-major slices with the order as a number, each safe to call.
//!
//! A matrix of order n is n * n numbers, one column after the other; a vector is n numbers. Each function answers `Ok`
//! with the output written in full, or a [`Refusal`] with the output as it was. Where more than one cause applies, the
//! first in the order `Order`, `InputLength`, `OutputLength`, then `Column` and `Row`, then `NotWhole`, `Singular` is
//! given; column and row numbers are tested in the order in which they are handed in. An answer that this crate doesn't
//! know is [`Refusal::Unknown`]; a library of the right version gives none.
//!
//! [`read_component`] takes bytes and no order, and has two outputs, both written or both as they were. Its causes are
//! tested in the order `OutputLength`, `RecordEnds` for the flags, `ScaleFlags`, `PointNumbers`, `RecordEnds` for the
//! rest of the record.
//!
//! This file holds all of the crate's `unsafe`: the declarations of libmigthumo.a, one safe function over each, and
//! the views of a record as its numbers. What makes a call safe is the same everywhere: a slice goes over as its own
//! pointer and its own length, the library tests every length before it reads or writes, it keeps no pointer, and a
//! slice lent for change overlaps no other.

use crate::{Matrix2, Matrix3, Matrix4, Refusal, Vector2, Vector3, Vector4};
use core::{ptr, slice};

// What the library exports: a slice is a pointer and then a length, the answer 0 or a refusal's.
extern "C" {
    fn migthumo_move_vectors(
        order: usize,
        m: *const f64,
        m_len: usize,
        vectors: *const f64,
        vectors_len: usize,
        out: *mut f64,
        out_len: usize,
    ) -> u32;
    fn migthumo_move_points(
        order: usize,
        m: *const f64,
        m_len: usize,
        points: *const f64,
        points_len: usize,
        out: *mut f64,
        out_len: usize,
    ) -> u32;
    fn migthumo_determinant(order: usize, m: *const f64, m_len: usize, out: *mut f64, out_len: usize) -> u32;
    fn migthumo_invert(order: usize, m: *const f64, m_len: usize, out: *mut f64, out_len: usize) -> u32;
    fn migthumo_transpose(order: usize, m: *const f64, m_len: usize, out: *mut f64, out_len: usize) -> u32;
    fn migthumo_product(
        order: usize,
        a: *const f64,
        a_len: usize,
        b: *const f64,
        b_len: usize,
        out: *mut f64,
        out_len: usize,
    ) -> u32;
    fn migthumo_add(
        order: usize,
        a: *const f64,
        a_len: usize,
        b: *const f64,
        b_len: usize,
        out: *mut f64,
        out_len: usize,
    ) -> u32;
    fn migthumo_subtract(
        order: usize,
        a: *const f64,
        a_len: usize,
        b: *const f64,
        b_len: usize,
        out: *mut f64,
        out_len: usize,
    ) -> u32;
    fn migthumo_signed_sum(order: usize, m: *const f64, m_len: usize, out: *mut i64, out_len: usize) -> u32;
    fn migthumo_undoable(order: usize, m: *const f64, m_len: usize, out: *mut u8, out_len: usize) -> u32;
    fn migthumo_swap_rows(
        order: usize,
        a: usize,
        b: usize,
        m: *const f64,
        m_len: usize,
        out: *mut f64,
        out_len: usize,
    ) -> u32;
    fn migthumo_swap_columns(
        order: usize,
        a: usize,
        b: usize,
        m: *const f64,
        m_len: usize,
        out: *mut f64,
        out_len: usize,
    ) -> u32;
    fn migthumo_swap_elements(
        order: usize,
        ac: usize,
        ar: usize,
        bc: usize,
        br: usize,
        m: *const f64,
        m_len: usize,
        out: *mut f64,
        out_len: usize,
    ) -> u32;
    fn migthumo_row(order: usize, r: usize, m: *const f64, m_len: usize, out: *mut f64, out_len: usize) -> u32;
    fn migthumo_diagonal(order: usize, m: *const f64, m_len: usize, out: *mut f64, out_len: usize) -> u32;
    fn migthumo_scale(order: usize, s: f64, m: *const f64, m_len: usize, out: *mut f64, out_len: usize) -> u32;
    fn migthumo_divide(order: usize, s: f64, m: *const f64, m_len: usize, out: *mut f64, out_len: usize) -> u32;
    fn migthumo_scale_by(order: usize, m: *const f64, m_len: usize, s: f64, out: *mut f64, out_len: usize) -> u32;
    fn migthumo_divide_by(order: usize, m: *const f64, m_len: usize, s: f64, out: *mut f64, out_len: usize) -> u32;
    fn migthumo_negate(order: usize, m: *const f64, m_len: usize, out: *mut f64, out_len: usize) -> u32;
    fn migthumo_embed(order: usize, to: usize, m: *const f64, m_len: usize, out: *mut f64, out_len: usize) -> u32;
    fn migthumo_from_angle(s: f64, c: f64, out: *mut f64, out_len: usize) -> u32;
    fn migthumo_from_angle_x(order: usize, s: f64, c: f64, out: *mut f64, out_len: usize) -> u32;
    fn migthumo_from_angle_y(order: usize, s: f64, c: f64, out: *mut f64, out_len: usize) -> u32;
    fn migthumo_from_angle_z(order: usize, s: f64, c: f64, out: *mut f64, out_len: usize) -> u32;
    fn migthumo_from_axis_angle(
        order: usize,
        x: f64,
        y: f64,
        z: f64,
        s: f64,
        c: f64,
        out: *mut f64,
        out_len: usize,
    ) -> u32;
    fn migthumo_swap_rows_mut(m: *mut Matrix4, a: usize, b: usize) -> u32;
    fn migthumo_swap_columns_mut(m: *mut Matrix4, a: usize, b: usize) -> u32;
    fn migthumo_swap_elements_mut(m: *mut Matrix4, ac: usize, ar: usize, bc: usize, br: usize) -> u32;
    fn migthumo_read_component(
        bytes: *const u8,
        bytes_len: usize,
        at: usize,
        head: *mut usize,
        head_len: usize,
        m: *mut f64,
        m_len: usize,
    ) -> u32;
    fn migthumo_version() -> u32;
}

/// The library's answer: 0 is given, any other number refused.
#[inline]
fn answer(number: u32) -> Result<(), Refusal> {
    match number {
        0 => Ok(()),
        _ => Err(refused(number)),
    }
}

/// The refusal that is answered so, known or not.
#[cold]
fn refused(answer: u32) -> Refusal {
    Refusal::from_answer(answer).unwrap_or(Refusal::Unknown(answer))
}

// ---- records as numbers in a row

/// A record of numbers in a row.
///
/// # Safety
///
/// It is `NUMBERS` `f64`s and nothing else, without a gap, aligned as they are.
pub(crate) unsafe trait Record: Copy {
    /// How many numbers.
    const NUMBERS: usize;
    /// The record whose numbers are all NaN.
    const NAN: Self;
}

/// Says so of a record, and has the compiler measure it.
macro_rules! record {
    ($Record:ident, $numbers:literal, $nan:expr) => {
        const _: () = assert!(size_of::<$Record>() == $numbers * size_of::<f64>());
        const _: () = assert!(align_of::<$Record>() == align_of::<f64>());
        // SAFETY: `#[repr(C)]`, made of `f64`s or of such records, and measured above.
        unsafe impl Record for $Record {
            const NUMBERS: usize = $numbers;
            const NAN: Self = $nan;
        }
    };
}

record!(Vector2, 2, Vector2::new(f64::NAN, f64::NAN));
record!(Vector3, 3, Vector3::new(f64::NAN, f64::NAN, f64::NAN));
record!(Vector4, 4, Vector4::new(f64::NAN, f64::NAN, f64::NAN, f64::NAN));
record!(Matrix2, 4, Matrix2::from_cols(Vector2::NAN, Vector2::NAN));
record!(Matrix3, 9, Matrix3::from_cols(Vector3::NAN, Vector3::NAN, Vector3::NAN));
record!(Matrix4, 16, Matrix4::from_cols(Vector4::NAN, Vector4::NAN, Vector4::NAN, Vector4::NAN));

// SAFETY: an array is its elements, without a gap, aligned as they are.
unsafe impl<const N: usize> Record for [f64; N] {
    const NUMBERS: usize = N;
    const NAN: Self = [f64::NAN; N];
}

// SAFETY: as above, twice.
unsafe impl<const N: usize> Record for [[f64; N]; N] {
    const NUMBERS: usize = N * N;
    const NAN: Self = [[f64::NAN; N]; N];
}

/// The record as another record of as many numbers.
#[inline]
pub(crate) fn view<T: Record, U: Record>(record: &T) -> &U {
    const { assert!(T::NUMBERS == U::NUMBERS) };
    // SAFETY: both are equally many numbers in a row, aligned alike, and any number may stand in either.
    unsafe { &*ptr::from_ref(record).cast() }
}

/// The record as another record of as many numbers, to be written to.
#[inline]
pub(crate) fn view_mut<T: Record, U: Record>(record: &mut T) -> &mut U {
    const { assert!(T::NUMBERS == U::NUMBERS) };
    // SAFETY: as in `view`; the record is lent for change.
    unsafe { &mut *ptr::from_mut(record).cast() }
}

/// The bytes of one number.
const SIZE: usize = size_of::<f64>();

/// The records' numbers in a row.
#[inline]
pub(crate) fn flat<T: Record>(records: &[T]) -> &[f64] {
    // SAFETY: a record is numbers in a row, records of a slice stand without a gap, and so many fill the slice.
    unsafe { slice::from_raw_parts(records.as_ptr().cast(), size_of_val(records) / SIZE) }
}

/// The records' numbers in a row, to be written to.
#[inline]
pub(crate) fn flat_mut<T: Record>(records: &mut [T]) -> &mut [f64] {
    // SAFETY: as in `flat`; the records are lent for change, and any number may stand in a record.
    unsafe { slice::from_raw_parts_mut(records.as_mut_ptr().cast(), size_of_val(records) / SIZE) }
}

/// One record's numbers.
#[inline]
pub(crate) fn numbers<T: Record>(record: &T) -> &[f64] {
    flat(slice::from_ref(record))
}

/// One record's numbers, to be written to.
#[inline]
pub(crate) fn numbers_mut<T: Record>(record: &mut T) -> &mut [f64] {
    flat_mut(slice::from_mut(record))
}

// ---- the functions

/// The version of the library that is linked. The build script compares it with [`VERSION`](crate::VERSION).
///
/// ```
/// assert_eq!(migthumo::ffi::version(), 2);
/// ```
#[inline]
#[must_use]
pub fn version() -> u32 {
    // SAFETY: it takes nothing, and answers a number.
    unsafe { migthumo_version() }
}

/// The matrix times every vector, one vector after the other.
///
/// ```
/// use migthumo::ffi;
///
/// let turn = [0.0, 1.0, -1.0, 0.0];
/// let mut out = [0.0; 4];
/// ffi::move_vectors(2, &turn, &[1.0, 0.0, 2.0, 3.0], &mut out)?;
/// assert_eq!(out, [0.0, 1.0, -3.0, 2.0]);
/// # Ok::<(), migthumo::Refusal>(())
/// ```
///
/// # Errors
///
/// [`Refusal::Order`] unless the order is 2, 3 or 4; [`Refusal::InputLength`] unless `m` has order * order numbers and
/// the count of `vectors` is a multiple of the order; [`Refusal::OutputLength`] unless `out` has as many numbers as
/// `vectors`.
#[inline]
pub fn move_vectors(order: usize, m: &[f64], vectors: &[f64], out: &mut [f64]) -> Result<(), Refusal> {
    // SAFETY: each of `m`, `vectors` and `out` goes over with its own length.
    answer(unsafe {
        migthumo_move_vectors(order, m.as_ptr(), m.len(), vectors.as_ptr(), vectors.len(), out.as_mut_ptr(), out.len())
    })
}

/// The matrix times every point extended by 1, without the last coordinate: orders 3 and 4, points one number shorter.
///
/// ```
/// use migthumo::ffi;
///
/// let shift = [1.0, 0.0, 0.0, 0.0, 1.0, 0.0, 10.0, 20.0, 1.0];
/// let mut out = [0.0; 4];
/// ffi::move_points(3, &shift, &[1.0, 2.0, 3.0, 4.0], &mut out)?;
/// assert_eq!(out, [11.0, 22.0, 13.0, 24.0]);
/// # Ok::<(), migthumo::Refusal>(())
/// ```
///
/// # Errors
///
/// [`Refusal::Order`] unless the order is 3 or 4; [`Refusal::InputLength`] unless `m` has order * order numbers and the
/// count of `points` is a multiple of the order less 1; [`Refusal::OutputLength`] unless `out` has as many numbers as
/// `points`.
#[inline]
pub fn move_points(order: usize, m: &[f64], points: &[f64], out: &mut [f64]) -> Result<(), Refusal> {
    // SAFETY: each of `m`, `points` and `out` goes over with its own length.
    answer(unsafe {
        migthumo_move_points(order, m.as_ptr(), m.len(), points.as_ptr(), points.len(), out.as_mut_ptr(), out.len())
    })
}

/// The determinant, into an output of one number.
///
/// ```
/// use migthumo::ffi;
///
/// let mut out = [0.0];
/// ffi::determinant(2, &[3.0, 5.0, 1.0, 2.0], &mut out)?;
/// assert_eq!(out, [1.0]);
/// # Ok::<(), migthumo::Refusal>(())
/// ```
///
/// # Errors
///
/// [`Refusal::Order`] unless the order is 2, 3 or 4; [`Refusal::InputLength`] unless `m` has order * order numbers;
/// [`Refusal::OutputLength`] unless `out` has 1 number.
#[inline]
pub fn determinant(order: usize, m: &[f64], out: &mut [f64]) -> Result<(), Refusal> {
    // SAFETY: each of `m` and `out` goes over with its own length.
    answer(unsafe { migthumo_determinant(order, m.as_ptr(), m.len(), out.as_mut_ptr(), out.len()) })
}

/// The inverse.
///
/// ```
/// use migthumo::{ffi, Refusal};
///
/// let mut out = [7.0; 4];
/// assert_eq!(ffi::invert(2, &[1.0, 2.0, 2.0, 4.0], &mut out), Err(Refusal::Singular));
/// assert_eq!(out, [7.0; 4]);
/// ffi::invert(2, &[3.0, 5.0, 1.0, 2.0], &mut out)?;
/// assert_eq!(out, [2.0, -5.0, -1.0, 3.0]);
/// # Ok::<(), migthumo::Refusal>(())
/// ```
///
/// # Errors
///
/// [`Refusal::Order`] unless the order is 2, 3 or 4; [`Refusal::InputLength`] unless `m` has order * order numbers;
/// [`Refusal::OutputLength`] unless `out` has order * order numbers; [`Refusal::Singular`] where the determinant
/// compares equal to zero.
#[inline]
pub fn invert(order: usize, m: &[f64], out: &mut [f64]) -> Result<(), Refusal> {
    // SAFETY: each of `m` and `out` goes over with its own length.
    answer(unsafe { migthumo_invert(order, m.as_ptr(), m.len(), out.as_mut_ptr(), out.len()) })
}

/// Columns as rows.
///
/// ```
/// use migthumo::ffi;
///
/// let mut out = [0.0; 4];
/// ffi::transpose(2, &[1.0, 2.0, 3.0, 4.0], &mut out)?;
/// assert_eq!(out, [1.0, 3.0, 2.0, 4.0]);
/// # Ok::<(), migthumo::Refusal>(())
/// ```
///
/// # Errors
///
/// [`Refusal::Order`] unless the order is 2, 3 or 4; [`Refusal::InputLength`] unless `m` has order * order numbers;
/// [`Refusal::OutputLength`] unless `out` has order * order numbers.
#[inline]
pub fn transpose(order: usize, m: &[f64], out: &mut [f64]) -> Result<(), Refusal> {
    // SAFETY: each of `m` and `out` goes over with its own length.
    answer(unsafe { migthumo_transpose(order, m.as_ptr(), m.len(), out.as_mut_ptr(), out.len()) })
}

/// The product a times b.
///
/// ```
/// use migthumo::ffi;
///
/// let mut out = [0.0; 4];
/// ffi::product(2, &[1.0, 0.0, 1.0, 1.0], &[1.0, 1.0, 0.0, 1.0], &mut out)?;
/// assert_eq!(out, [2.0, 1.0, 1.0, 1.0]);
/// # Ok::<(), migthumo::Refusal>(())
/// ```
///
/// # Errors
///
/// [`Refusal::Order`] unless the order is 2, 3 or 4; [`Refusal::InputLength`] unless `a` and `b` have order * order
/// numbers each; [`Refusal::OutputLength`] unless `out` has order * order numbers.
#[inline]
pub fn product(order: usize, a: &[f64], b: &[f64], out: &mut [f64]) -> Result<(), Refusal> {
    // SAFETY: each of `a`, `b` and `out` goes over with its own length.
    answer(unsafe { migthumo_product(order, a.as_ptr(), a.len(), b.as_ptr(), b.len(), out.as_mut_ptr(), out.len()) })
}

/// The sum, entry by entry.
///
/// ```
/// use migthumo::ffi;
///
/// let mut out = [0.0; 4];
/// ffi::add(2, &[1.0, 2.0, 3.0, 4.0], &[10.0, 20.0, 30.0, 40.0], &mut out)?;
/// assert_eq!(out, [11.0, 22.0, 33.0, 44.0]);
/// # Ok::<(), migthumo::Refusal>(())
/// ```
///
/// # Errors
///
/// [`Refusal::Order`] unless the order is 2, 3 or 4; [`Refusal::InputLength`] unless `a` and `b` have order * order
/// numbers each; [`Refusal::OutputLength`] unless `out` has order * order numbers.
#[inline]
pub fn add(order: usize, a: &[f64], b: &[f64], out: &mut [f64]) -> Result<(), Refusal> {
    // SAFETY: each of `a`, `b` and `out` goes over with its own length.
    answer(unsafe { migthumo_add(order, a.as_ptr(), a.len(), b.as_ptr(), b.len(), out.as_mut_ptr(), out.len()) })
}

/// The difference a less b, entry by entry.
///
/// ```
/// use migthumo::ffi;
///
/// let mut out = [0.0; 4];
/// ffi::subtract(2, &[11.0, 22.0, 33.0, 44.0], &[1.0, 2.0, 3.0, 4.0], &mut out)?;
/// assert_eq!(out, [10.0, 20.0, 30.0, 40.0]);
/// # Ok::<(), migthumo::Refusal>(())
/// ```
///
/// # Errors
///
/// [`Refusal::Order`] unless the order is 2, 3 or 4; [`Refusal::InputLength`] unless `a` and `b` have order * order
/// numbers each; [`Refusal::OutputLength`] unless `out` has order * order numbers.
#[inline]
pub fn subtract(order: usize, a: &[f64], b: &[f64], out: &mut [f64]) -> Result<(), Refusal> {
    // SAFETY: each of `a`, `b` and `out` goes over with its own length.
    answer(unsafe { migthumo_subtract(order, a.as_ptr(), a.len(), b.as_ptr(), b.len(), out.as_mut_ptr(), out.len()) })
}

/// The signed sum over all column orders, exact, into an output of one whole number.
///
/// ```
/// use migthumo::{ffi, Refusal};
///
/// let mut out = [0];
/// ffi::signed_sum(2, &[1024.0, -0.0, 3.0, 1024.0], &mut out)?;
/// assert_eq!(out, [1 << 20]);
/// assert_eq!(ffi::signed_sum(2, &[0.5, 0.0, 0.0, 1.0], &mut out), Err(Refusal::NotWhole));
/// # Ok::<(), migthumo::Refusal>(())
/// ```
///
/// # Errors
///
/// [`Refusal::Order`] unless the order is 2, 3 or 4; [`Refusal::InputLength`] unless `m` has order * order numbers;
/// [`Refusal::OutputLength`] unless `out` has 1 number; [`Refusal::NotWhole`] unless every entry is a whole number of
/// magnitude at most 1024.
#[inline]
pub fn signed_sum(order: usize, m: &[f64], out: &mut [i64]) -> Result<(), Refusal> {
    // SAFETY: each of `m` and `out` goes over with its own length.
    answer(unsafe { migthumo_signed_sum(order, m.as_ptr(), m.len(), out.as_mut_ptr(), out.len()) })
}

/// Whether the magnitude of the signed sum has exactly one bit set, 1 or 0, into an output of one byte. The matrices'
/// own `undoable` says what a 1 entitles to.
///
/// ```
/// use migthumo::ffi;
///
/// let mut out = [9];
/// ffi::undoable(2, &[2.0, 0.0, 0.0, 4.0], &mut out)?;
/// assert_eq!(out, [1]);
/// ffi::undoable(2, &[3.0, 0.0, 0.0, 1.0], &mut out)?;
/// assert_eq!(out, [0]);
/// # Ok::<(), migthumo::Refusal>(())
/// ```
///
/// # Errors
///
/// [`Refusal::Order`] unless the order is 2, 3 or 4; [`Refusal::InputLength`] unless `m` has order * order numbers;
/// [`Refusal::OutputLength`] unless `out` has 1 byte; [`Refusal::NotWhole`] unless every entry is a whole number of
/// magnitude at most 1024.
#[inline]
pub fn undoable(order: usize, m: &[f64], out: &mut [u8]) -> Result<(), Refusal> {
    // SAFETY: each of `m` and `out` goes over with its own length.
    answer(unsafe { migthumo_undoable(order, m.as_ptr(), m.len(), out.as_mut_ptr(), out.len()) })
}

/// Rows a and b exchanged.
///
/// ```
/// use migthumo::ffi;
///
/// let mut out = [0.0; 4];
/// ffi::swap_rows(2, 0, 1, &[1.0, 2.0, 3.0, 4.0], &mut out)?;
/// assert_eq!(out, [2.0, 1.0, 4.0, 3.0]);
/// # Ok::<(), migthumo::Refusal>(())
/// ```
///
/// # Errors
///
/// [`Refusal::Order`] unless the order is 2, 3 or 4; [`Refusal::InputLength`] unless `m` has order * order numbers;
/// [`Refusal::OutputLength`] unless `out` has order * order numbers; [`Refusal::Row(Place::First)`](Refusal::Row)
/// unless `a` is below the order, then [`Refusal::Row(Place::Second)`](Refusal::Row) unless `b` is.
#[inline]
pub fn swap_rows(order: usize, a: usize, b: usize, m: &[f64], out: &mut [f64]) -> Result<(), Refusal> {
    // SAFETY: each of `m` and `out` goes over with its own length.
    answer(unsafe { migthumo_swap_rows(order, a, b, m.as_ptr(), m.len(), out.as_mut_ptr(), out.len()) })
}

/// Columns a and b exchanged.
///
/// ```
/// use migthumo::ffi;
///
/// let mut out = [0.0; 4];
/// ffi::swap_columns(2, 0, 1, &[1.0, 2.0, 3.0, 4.0], &mut out)?;
/// assert_eq!(out, [3.0, 4.0, 1.0, 2.0]);
/// # Ok::<(), migthumo::Refusal>(())
/// ```
///
/// # Errors
///
/// [`Refusal::Order`] unless the order is 2, 3 or 4; [`Refusal::InputLength`] unless `m` has order * order numbers;
/// [`Refusal::OutputLength`] unless `out` has order * order numbers; [`Refusal::Column(Place::First)`](Refusal::Column)
/// unless `a` is below the order, then [`Refusal::Column(Place::Second)`](Refusal::Column) unless `b` is.
#[inline]
pub fn swap_columns(order: usize, a: usize, b: usize, m: &[f64], out: &mut [f64]) -> Result<(), Refusal> {
    // SAFETY: each of `m` and `out` goes over with its own length.
    answer(unsafe { migthumo_swap_columns(order, a, b, m.as_ptr(), m.len(), out.as_mut_ptr(), out.len()) })
}

/// The entries at column ac, row ar and at column bc, row br exchanged.
///
/// ```
/// use migthumo::ffi;
///
/// let mut out = [0.0; 4];
/// ffi::swap_elements(2, 0, 1, 1, 0, &[1.0, 2.0, 3.0, 4.0], &mut out)?;
/// assert_eq!(out, [1.0, 3.0, 2.0, 4.0]);
/// # Ok::<(), migthumo::Refusal>(())
/// ```
///
/// # Errors
///
/// [`Refusal::Order`] unless the order is 2, 3 or 4; [`Refusal::InputLength`] unless `m` has order * order numbers;
/// [`Refusal::OutputLength`] unless `out` has order * order numbers; then for the first number that is not below the
/// order: [`Refusal::Column(Place::First)`](Refusal::Column) for `ac`, [`Refusal::Row(Place::First)`](Refusal::Row) for
/// `ar`, [`Refusal::Column(Place::Second)`](Refusal::Column) for `bc`, [`Refusal::Row(Place::Second)`](Refusal::Row)
/// for `br`.
#[inline]
pub fn swap_elements(
    order: usize,
    ac: usize,
    ar: usize,
    bc: usize,
    br: usize,
    m: &[f64],
    out: &mut [f64],
) -> Result<(), Refusal> {
    // SAFETY: each of `m` and `out` goes over with its own length.
    answer(unsafe { migthumo_swap_elements(order, ac, ar, bc, br, m.as_ptr(), m.len(), out.as_mut_ptr(), out.len()) })
}

/// Row r.
///
/// ```
/// use migthumo::ffi;
///
/// let mut out = [0.0; 2];
/// ffi::row(2, 1, &[1.0, 2.0, 3.0, 4.0], &mut out)?;
/// assert_eq!(out, [2.0, 4.0]);
/// # Ok::<(), migthumo::Refusal>(())
/// ```
///
/// # Errors
///
/// [`Refusal::Order`] unless the order is 2, 3 or 4; [`Refusal::InputLength`] unless `m` has order * order numbers;
/// [`Refusal::OutputLength`] unless `out` has as many numbers as the order;
/// [`Refusal::Row(Place::First)`](Refusal::Row) unless `r` is below the order.
#[inline]
pub fn row(order: usize, r: usize, m: &[f64], out: &mut [f64]) -> Result<(), Refusal> {
    // SAFETY: each of `m` and `out` goes over with its own length.
    answer(unsafe { migthumo_row(order, r, m.as_ptr(), m.len(), out.as_mut_ptr(), out.len()) })
}

/// The entries whose column is their row.
///
/// ```
/// use migthumo::ffi;
///
/// let mut out = [0.0; 2];
/// ffi::diagonal(2, &[1.0, 2.0, 3.0, 4.0], &mut out)?;
/// assert_eq!(out, [1.0, 4.0]);
/// # Ok::<(), migthumo::Refusal>(())
/// ```
///
/// # Errors
///
/// [`Refusal::Order`] unless the order is 2, 3 or 4; [`Refusal::InputLength`] unless `m` has order * order numbers;
/// [`Refusal::OutputLength`] unless `out` has as many numbers as the order.
#[inline]
pub fn diagonal(order: usize, m: &[f64], out: &mut [f64]) -> Result<(), Refusal> {
    // SAFETY: each of `m` and `out` goes over with its own length.
    answer(unsafe { migthumo_diagonal(order, m.as_ptr(), m.len(), out.as_mut_ptr(), out.len()) })
}

/// The scalar, on the left, times each entry.
///
/// ```
/// use migthumo::ffi;
///
/// let mut out = [0.0; 4];
/// ffi::scale(2, 3.0, &[1.0, 2.0, 3.0, 4.0], &mut out)?;
/// assert_eq!(out, [3.0, 6.0, 9.0, 12.0]);
/// # Ok::<(), migthumo::Refusal>(())
/// ```
///
/// # Errors
///
/// [`Refusal::Order`] unless the order is 2, 3 or 4; [`Refusal::InputLength`] unless `m` has order * order numbers;
/// [`Refusal::OutputLength`] unless `out` has order * order numbers.
#[inline]
pub fn scale(order: usize, s: f64, m: &[f64], out: &mut [f64]) -> Result<(), Refusal> {
    // SAFETY: each of `m` and `out` goes over with its own length.
    answer(unsafe { migthumo_scale(order, s, m.as_ptr(), m.len(), out.as_mut_ptr(), out.len()) })
}

/// The scalar, on the left, divided by each entry.
///
/// ```
/// use migthumo::ffi;
///
/// let mut out = [0.0; 4];
/// ffi::divide(2, 12.0, &[1.0, 2.0, 3.0, 4.0], &mut out)?;
/// assert_eq!(out, [12.0, 6.0, 4.0, 3.0]);
/// # Ok::<(), migthumo::Refusal>(())
/// ```
///
/// # Errors
///
/// [`Refusal::Order`] unless the order is 2, 3 or 4; [`Refusal::InputLength`] unless `m` has order * order numbers;
/// [`Refusal::OutputLength`] unless `out` has order * order numbers.
#[inline]
pub fn divide(order: usize, s: f64, m: &[f64], out: &mut [f64]) -> Result<(), Refusal> {
    // SAFETY: each of `m` and `out` goes over with its own length.
    answer(unsafe { migthumo_divide(order, s, m.as_ptr(), m.len(), out.as_mut_ptr(), out.len()) })
}

/// Each entry times the scalar, on the right.
///
/// ```
/// use migthumo::ffi;
///
/// let mut out = [0.0; 4];
/// ffi::scale_by(2, &[1.0, 2.0, 3.0, 4.0], 3.0, &mut out)?;
/// assert_eq!(out, [3.0, 6.0, 9.0, 12.0]);
/// # Ok::<(), migthumo::Refusal>(())
/// ```
///
/// # Errors
///
/// [`Refusal::Order`] unless the order is 2, 3 or 4; [`Refusal::InputLength`] unless `m` has order * order numbers;
/// [`Refusal::OutputLength`] unless `out` has order * order numbers.
#[inline]
pub fn scale_by(order: usize, m: &[f64], s: f64, out: &mut [f64]) -> Result<(), Refusal> {
    // SAFETY: each of `m` and `out` goes over with its own length.
    answer(unsafe { migthumo_scale_by(order, m.as_ptr(), m.len(), s, out.as_mut_ptr(), out.len()) })
}

/// Each entry divided by the scalar, on the right.
///
/// ```
/// use migthumo::ffi;
///
/// let mut out = [0.0; 4];
/// ffi::divide_by(2, &[1.0, 2.0, 3.0, 4.0], 2.0, &mut out)?;
/// assert_eq!(out, [0.5, 1.0, 1.5, 2.0]);
/// # Ok::<(), migthumo::Refusal>(())
/// ```
///
/// # Errors
///
/// [`Refusal::Order`] unless the order is 2, 3 or 4; [`Refusal::InputLength`] unless `m` has order * order numbers;
/// [`Refusal::OutputLength`] unless `out` has order * order numbers.
#[inline]
pub fn divide_by(order: usize, m: &[f64], s: f64, out: &mut [f64]) -> Result<(), Refusal> {
    // SAFETY: each of `m` and `out` goes over with its own length.
    answer(unsafe { migthumo_divide_by(order, m.as_ptr(), m.len(), s, out.as_mut_ptr(), out.len()) })
}

/// Every sign turned.
///
/// ```
/// use migthumo::ffi;
///
/// let mut out = [0.0; 4];
/// ffi::negate(2, &[1.0, -2.0, 3.0, -4.0], &mut out)?;
/// assert_eq!(out, [-1.0, 2.0, -3.0, 4.0]);
/// # Ok::<(), migthumo::Refusal>(())
/// ```
///
/// # Errors
///
/// [`Refusal::Order`] unless the order is 2, 3 or 4; [`Refusal::InputLength`] unless `m` has order * order numbers;
/// [`Refusal::OutputLength`] unless `out` has order * order numbers.
#[inline]
pub fn negate(order: usize, m: &[f64], out: &mut [f64]) -> Result<(), Refusal> {
    // SAFETY: each of `m` and `out` goes over with its own length.
    answer(unsafe { migthumo_negate(order, m.as_ptr(), m.len(), out.as_mut_ptr(), out.len()) })
}

/// The matrix in the top left corner of the identity of the order `to`: 2 in 3, 2 in 4 or 3 in 4.
///
/// ```
/// use migthumo::ffi;
///
/// let mut out = [0.0; 9];
/// ffi::embed(2, 3, &[1.0, 2.0, 3.0, 4.0], &mut out)?;
/// assert_eq!(out, [1.0, 2.0, 0.0, 3.0, 4.0, 0.0, 0.0, 0.0, 1.0]);
/// # Ok::<(), migthumo::Refusal>(())
/// ```
///
/// # Errors
///
/// [`Refusal::Order`] unless (`order`, `to`) is (2, 3), (2, 4) or (3, 4); [`Refusal::InputLength`] unless `m` has order
/// * order numbers; [`Refusal::OutputLength`] unless `out` has to * to numbers.
#[inline]
pub fn embed(order: usize, to: usize, m: &[f64], out: &mut [f64]) -> Result<(), Refusal> {
    // SAFETY: each of `m` and `out` goes over with its own length.
    answer(unsafe { migthumo_embed(order, to, m.as_ptr(), m.len(), out.as_mut_ptr(), out.len()) })
}

/// The rotation of the plane with the sine s and the cosine c: order 2.
///
/// ```
/// use migthumo::ffi;
///
/// let mut out = [0.0; 4];
/// ffi::from_angle(1.0, 0.0, &mut out)?;
/// assert_eq!(out, [0.0, 1.0, -1.0, 0.0]);
/// # Ok::<(), migthumo::Refusal>(())
/// ```
///
/// # Errors
///
/// [`Refusal::OutputLength`] unless `out` has 4 numbers.
#[inline]
pub fn from_angle(s: f64, c: f64, out: &mut [f64]) -> Result<(), Refusal> {
    // SAFETY: `out` goes over with its own length.
    answer(unsafe { migthumo_from_angle(s, c, out.as_mut_ptr(), out.len()) })
}

/// The rotation around the x axis with the sine s and the cosine c: orders 3 and 4.
///
/// ```
/// use migthumo::ffi;
///
/// let mut out = [9.0; 9];
/// ffi::from_angle_x(3, 1.0, 0.0, &mut out)?;
/// assert_eq!(out, [1.0, 0.0, 0.0, 0.0, 0.0, 1.0, 0.0, -1.0, 0.0]);
/// # Ok::<(), migthumo::Refusal>(())
/// ```
///
/// # Errors
///
/// [`Refusal::Order`] unless the order is 3 or 4; [`Refusal::OutputLength`] unless `out` has order * order numbers.
#[inline]
pub fn from_angle_x(order: usize, s: f64, c: f64, out: &mut [f64]) -> Result<(), Refusal> {
    // SAFETY: `out` goes over with its own length.
    answer(unsafe { migthumo_from_angle_x(order, s, c, out.as_mut_ptr(), out.len()) })
}

/// The rotation around the y axis with the sine s and the cosine c: orders 3 and 4.
///
/// ```
/// use migthumo::ffi;
///
/// let mut out = [9.0; 9];
/// ffi::from_angle_y(3, 1.0, 0.0, &mut out)?;
/// assert_eq!(out, [0.0, 0.0, -1.0, 0.0, 1.0, 0.0, 1.0, 0.0, 0.0]);
/// # Ok::<(), migthumo::Refusal>(())
/// ```
///
/// # Errors
///
/// [`Refusal::Order`] unless the order is 3 or 4; [`Refusal::OutputLength`] unless `out` has order * order numbers.
#[inline]
pub fn from_angle_y(order: usize, s: f64, c: f64, out: &mut [f64]) -> Result<(), Refusal> {
    // SAFETY: `out` goes over with its own length.
    answer(unsafe { migthumo_from_angle_y(order, s, c, out.as_mut_ptr(), out.len()) })
}

/// The rotation around the z axis with the sine s and the cosine c: orders 3 and 4.
///
/// ```
/// use migthumo::ffi;
///
/// let mut out = [9.0; 9];
/// ffi::from_angle_z(3, 1.0, 0.0, &mut out)?;
/// assert_eq!(out, [0.0, 1.0, 0.0, -1.0, 0.0, 0.0, 0.0, 0.0, 1.0]);
/// # Ok::<(), migthumo::Refusal>(())
/// ```
///
/// # Errors
///
/// [`Refusal::Order`] unless the order is 3 or 4; [`Refusal::OutputLength`] unless `out` has order * order numbers.
#[inline]
pub fn from_angle_z(order: usize, s: f64, c: f64, out: &mut [f64]) -> Result<(), Refusal> {
    // SAFETY: `out` goes over with its own length.
    answer(unsafe { migthumo_from_angle_z(order, s, c, out.as_mut_ptr(), out.len()) })
}

/// The rotation around the axis (x, y, z) with the sine s and the cosine c: orders 3 and 4. The axis is not checked for
/// length.
///
/// ```
/// use migthumo::ffi;
///
/// let mut out = [9.0; 9];
/// ffi::from_axis_angle(3, 0.0, 0.0, 1.0, 1.0, 0.0, &mut out)?;
/// assert_eq!(out, [0.0, 1.0, 0.0, -1.0, 0.0, 0.0, 0.0, 0.0, 1.0]);
/// # Ok::<(), migthumo::Refusal>(())
/// ```
///
/// # Errors
///
/// [`Refusal::Order`] unless the order is 3 or 4; [`Refusal::OutputLength`] unless `out` has order * order numbers.
#[inline]
pub fn from_axis_angle(order: usize, x: f64, y: f64, z: f64, s: f64, c: f64, out: &mut [f64]) -> Result<(), Refusal> {
    // SAFETY: `out` goes over with its own length.
    answer(unsafe { migthumo_from_axis_angle(order, x, y, z, s, c, out.as_mut_ptr(), out.len()) })
}

/// Rows a and b of the lent matrix exchanged.
///
/// ```
/// use migthumo::{ffi, Matrix4};
///
/// let mut m = Matrix4::identity();
/// ffi::swap_rows_mut(&mut m, 0, 3)?;
/// assert_eq!(m[0][3], 1.0);
/// # Ok::<(), migthumo::Refusal>(())
/// ```
///
/// # Errors
///
/// [`Refusal::Row(Place::First)`](Refusal::Row) unless `a` is below 4, then
/// [`Refusal::Row(Place::Second)`](Refusal::Row) unless `b` is. Where it is refused, the matrix is as it was.
#[inline]
pub fn swap_rows_mut(m: &mut Matrix4, a: usize, b: usize) -> Result<(), Refusal> {
    // SAFETY: `m` is a matrix that is lent for change.
    answer(unsafe { migthumo_swap_rows_mut(m, a, b) })
}

/// Columns a and b of the lent matrix exchanged.
///
/// ```
/// use migthumo::{ffi, Matrix4};
///
/// let mut m = Matrix4::identity();
/// ffi::swap_columns_mut(&mut m, 0, 3)?;
/// assert_eq!(m[0][3], 1.0);
/// # Ok::<(), migthumo::Refusal>(())
/// ```
///
/// # Errors
///
/// [`Refusal::Column(Place::First)`](Refusal::Column) unless `a` is below 4, then
/// [`Refusal::Column(Place::Second)`](Refusal::Column) unless `b` is. Where it is refused, the matrix is as it was.
#[inline]
pub fn swap_columns_mut(m: &mut Matrix4, a: usize, b: usize) -> Result<(), Refusal> {
    // SAFETY: `m` is a matrix that is lent for change.
    answer(unsafe { migthumo_swap_columns_mut(m, a, b) })
}

/// The entries at column ac, row ar and at column bc, row br of the lent matrix exchanged.
///
/// ```
/// use migthumo::{ffi, Matrix4};
///
/// let mut m = Matrix4::identity();
/// ffi::swap_elements_mut(&mut m, 0, 0, 0, 3)?;
/// assert_eq!(m[0][3], 1.0);
/// # Ok::<(), migthumo::Refusal>(())
/// ```
///
/// # Errors
///
/// For the first number that is not below 4: [`Refusal::Column(Place::First)`](Refusal::Column) for `ac`,
/// [`Refusal::Row(Place::First)`](Refusal::Row) for `ar`, [`Refusal::Column(Place::Second)`](Refusal::Column) for `bc`,
/// [`Refusal::Row(Place::Second)`](Refusal::Row) for `br`. Where it is refused, the matrix is as it was.
#[inline]
pub fn swap_elements_mut(m: &mut Matrix4, ac: usize, ar: usize, bc: usize, br: usize) -> Result<(), Refusal> {
    // SAFETY: `m` is a matrix that is lent for change.
    answer(unsafe { migthumo_swap_elements_mut(m, ac, ar, bc, br) })
}

/// One component of an OpenType glyf composite, read from its record at the place `at` in the bytes, counted from 0:
/// the flags, the glyph index and the place after the record into `head`, the matrix of order 3 into `m`.
/// [`Component::read`](crate::Component::read) says what a record is, and what the numbers mean.
///
/// ```
/// use migthumo::{ffi, Refusal};
///
/// let bytes = [0x00, 0x0b, 0x00, 0x41, 0x00, 0x0a, 0xff, 0xec, 0x20, 0x00];
/// let (mut head, mut m) = ([7; 3], [7.0; 9]);
/// assert_eq!(ffi::read_component(&bytes, 10, &mut head, &mut m), Err(Refusal::RecordEnds));
/// assert_eq!((head, m), ([7; 3], [7.0; 9]));
/// ffi::read_component(&bytes, 0, &mut head, &mut m)?;
/// assert_eq!(head, [0x000b, 65, 10]);
/// assert_eq!(m, [0.5, 0.0, 0.0, 0.0, 0.5, 0.0, 10.0, -20.0, 1.0]);
/// # Ok::<(), migthumo::Refusal>(())
/// ```
///
/// # Errors
///
/// [`Refusal::OutputLength`] unless `head` has 3 numbers and `m` has 9; [`Refusal::RecordEnds`] where the bytes end
/// inside the flags; [`Refusal::ScaleFlags`] where more than one of the flags 0x0008, 0x0040 and 0x0080 is set;
/// [`Refusal::PointNumbers`] where the flag 0x0002 is clear; [`Refusal::RecordEnds`] where the bytes end inside the
/// rest of the record. Where it is refused, both outputs are as they were.
#[inline]
pub fn read_component(bytes: &[u8], at: usize, head: &mut [usize], m: &mut [f64]) -> Result<(), Refusal> {
    // SAFETY: each of `bytes`, `head` and `m` goes over with its own length, and the library tests the place too.
    answer(unsafe {
        migthumo_read_component(bytes.as_ptr(), bytes.len(), at, head.as_mut_ptr(), head.len(), m.as_mut_ptr(), m.len())
    })
}

#[cfg(test)]
mod tests {
    use super::*;
    use crate::Place;

    #[test]
    fn every_answer_is_a_value() {
        assert_eq!(answer(0), Ok(()));
        assert_eq!(answer(2), Err(Refusal::Singular));
        assert_eq!([answer(11), answer(267)], [Place::First, Place::Second].map(|place| Err(Refusal::Column(place))));
        assert_eq!([answer(12), answer(268)], [Place::First, Place::Second].map(|place| Err(Refusal::Row(place))));
        for number in [1, 7, 255, 256, 258, 523, 524, u32::MAX] {
            assert_eq!(answer(number), Err(Refusal::Unknown(number)));
        }
    }

    #[test]
    fn an_answer_of_a_component_record() {
        assert_eq!(answer(20), Err(Refusal::RecordEnds));
        assert_eq!([answer(21), answer(22)], [Refusal::ScaleFlags, Refusal::PointNumbers].map(Err));
        for number in [19, 23, 276] {
            assert_eq!(answer(number), Err(Refusal::Unknown(number)));
        }
    }
}
