//! Component records of a font.

use crate::square::asked;
use crate::{ffi, Matrix3, Refusal};

/// One component of an OpenType glyf composite: the glyph that is borrowed, and the matrix that places it.
///
/// A composite is a header of ten bytes and then the records of its components, one after the other. They go on while
/// the flag 0x0020 is set. A record has six bytes or more, so a walk from each to the place after it comes to an end:
///
/// ```
/// use migthumo::{Component, Matrix3, Vector2};
///
/// let glyph = [
///     // The header: -1 for a composite, and the box.
///     0xff, 0xff, 0x00, 0x00, 0x00, 0x00, 0x02, 0x58, 0x03, 0x20,
///     // Glyph 36, where it stands; another follows.
///     0x00, 0x22, 0x00, 0x24, 0x00, 0x00,
///     // Glyph 112, moved by 150 to the right and 40 down.
///     0x00, 0x03, 0x00, 0x70, 0x00, 0x96, 0xff, 0xd8,
/// ];
/// let (mut components, mut at) = (vec![], 10);
/// loop {
///     let component = Component::read(&glyph, at)?;
///     components.push(component);
///     if component.flags & 0x0020 == 0 {
///         break;
///     }
///     at = component.after;
/// }
///
/// assert_eq!(components.len(), 2);
/// assert_eq!((components[0].index, components[0].matrix), (36, Matrix3::identity()));
/// let moved = Matrix3::from_translation(Vector2::new(150.0, -40.0));
/// assert_eq!((components[1].index, components[1].matrix), (112, moved));
/// assert_eq!(components[1].after, glyph.len());
/// # Ok::<(), migthumo::Refusal>(())
/// ```
#[derive(Clone, Copy, Debug, PartialEq)]
pub struct Component {
    /// The flags as they stand in the record. Where 0x0020 is set, another component follows.
    pub flags: u16,
    /// The index of the glyph that is borrowed.
    pub index: u16,
    /// The place after the record, in bytes from 0.
    pub after: usize,
    /// The matrix with the columns (xscale, scale01, 0), (scale10, yscale, 0), (dx, dy, 1): offsets in font units,
    /// scales as plain numbers, each of them exact. It moves a point (x, y) of the borrowed glyph as matrix times
    /// (x, y, 1).
    pub matrix: Matrix3,
}

impl Component {
    /// Reads the record at the place `at` in the bytes, counted from 0.
    ///
    /// The record is the flags and the glyph index, an unsigned word each; two signed offsets dx and dy, words where
    /// the flag 0x0001 is set, else single bytes; then no scale, one scale (0x0008), two scales (0x0040), or xscale,
    /// scale01, scale10 and yscale (0x0080). A word is 16 bits, larger byte first; a scale is F2Dot14, a signed word
    /// over 16384. One scale is both xscale and yscale, two are xscale and yscale; scale01 and scale10 are 0 with both.
    /// No scale is 1, 0, 0, 1.
    ///
    /// The offsets are never scaled by the linear part, whatever the flags 0x0800 and 0x1000 say. Any flags that are
    /// not refused are taken, reserved ones too, and bytes after the record are not looked at.
    ///
    /// ```
    /// use migthumo::{Component, Matrix3, Refusal, Vector3};
    ///
    /// // Glyph 65, half the size, moved by 10 to the right and 20 down: 0x0001 and 0x0002, and 0x0008 for one scale.
    /// let bytes = [0x00, 0x0b, 0x00, 0x41, 0x00, 0x0a, 0xff, 0xec, 0x20, 0x00];
    /// let component = Component::read(&bytes, 0)?;
    /// assert_eq!((component.flags, component.index, component.after), (0x000b, 65, 10));
    /// assert_eq!(component.matrix, Matrix3::new(0.5, 0.0, 0.0, 0.0, 0.5, 0.0, 10.0, -20.0, 1.0));
    /// assert_eq!(component.matrix * Vector3::new(100.0, 200.0, 1.0), Vector3::new(60.0, 80.0, 1.0));
    ///
    /// // A byte too few; a place where no bytes are; one scale and two at once; offsets that are point numbers.
    /// assert_eq!(Component::read(&bytes[..9], 0), Err(Refusal::RecordEnds));
    /// assert_eq!(Component::read(&bytes, usize::MAX), Err(Refusal::RecordEnds));
    /// assert_eq!(Component::read(&[0x00, 0x4b], 0), Err(Refusal::ScaleFlags));
    /// assert_eq!(Component::read(&[0x00, 0x09], 0), Err(Refusal::PointNumbers));
    /// # Ok::<(), Refusal>(())
    /// ```
    ///
    /// # Errors
    ///
    /// The first of these that applies: [`Refusal::RecordEnds`] where the bytes end inside the flags, so for every
    /// place at or past their end, however large; [`Refusal::ScaleFlags`] where more than one of the flags 0x0008,
    /// 0x0040 and 0x0080 is set; [`Refusal::PointNumbers`] where the flag 0x0002 is clear, since the offsets are point
    /// numbers then; [`Refusal::RecordEnds`] where the bytes end inside the rest of the record.
    #[inline]
    pub fn read(bytes: &[u8], at: usize) -> Result<Component, Refusal> {
        let mut head = [0; 3];
        let matrix = asked(|m| ffi::read_component(bytes, at, &mut head, m))?;
        Component::of(head, matrix)
    }

    /// The component of what the library wrote. Flags and index are proved to be numbers of 16 bits. If one were not,
    /// it would fit no component, and cut to 16 bits it would be another number: so the answer, 0, would be passed on
    /// as one that this crate doesn't know.
    #[inline]
    fn of([flags, index, after]: [usize; 3], matrix: Matrix3) -> Result<Component, Refusal> {
        match (u16::try_from(flags), u16::try_from(index)) {
            (Ok(flags), Ok(index)) => Ok(Component { flags, index, after, matrix }),
            _ => Err(Refusal::Unknown(0)),
        }
    }
}

#[cfg(test)]
mod tests {
    use super::*;

    #[test]
    fn a_head_that_is_never_given_is_a_value() {
        let (least, most) = (Component::of([0; 3], Matrix3::zero()), Component::of([0xffff; 3], Matrix3::zero()));
        assert_eq!(least.map(|least| (least.flags, least.index, least.after)), Ok((0, 0, 0)));
        assert_eq!(most.map(|most| (most.flags, most.index, most.after)), Ok((0xffff, 0xffff, 0xffff)));
        for head in [[0x10000, 0, 0], [0, 0x10000, 0], [usize::MAX; 3]] {
            assert_eq!(Component::of(head, Matrix3::zero()), Err(Refusal::Unknown(0)));
        }
    }
}
