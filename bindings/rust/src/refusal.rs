//! Why the library gives no value.

use core::error::Error;
use core::fmt;

/// Which of two column numbers, or of two row numbers, in the order in which they are handed in.
///
/// ```
/// use migthumo::{Matrix2, Place, Refusal};
///
/// let refusal = Matrix2::identity().swap_rows(0, 2).unwrap_err();
/// assert_eq!(refusal, Refusal::Row(Place::Second));
/// assert_eq!(Place::Second.to_string(), "second");
/// ```
#[derive(Clone, Copy, Debug, PartialEq, Eq, Hash)]
pub enum Place {
    /// The first, or the only one.
    First,
    /// The second.
    Second,
}

impl fmt::Display for Place {
    fn fmt(&self, f: &mut fmt::Formatter<'_>) -> fmt::Result {
        f.write_str(match self {
            Place::First => "first",
            Place::Second => "second",
        })
    }
}

/// Why an operation gave no value. What it would have written to is as it was.
///
/// Where more than one cause applies, the first in the order 5, 3, 4, then 11 and 12, then 6, 2 is given. Column and
/// row numbers (11 and 12) are tested in the order in which they are handed in. A later version may know more causes,
/// so a `match` needs an arm for the rest.
///
/// Of a component record the first in the order 4, 20 for its flags, 21, 22, 20 for the rest of it is given.
///
/// ```
/// use migthumo::{Matrix3, Place, Refusal};
///
/// let refusal = Matrix3::zero().invert().unwrap_err();
/// assert_eq!(refusal, Refusal::Singular);
/// assert_eq!(u32::from(refusal), 2);
/// assert_eq!(Refusal::try_from(2), Ok(Refusal::Singular));
/// assert_eq!(refusal.to_string(), "refusal 2: the determinant compares equal to zero");
///
/// let refusal = Matrix3::zero().swap_rows(0, 3).unwrap_err();
/// assert_eq!(refusal, Refusal::Row(Place::Second));
/// assert_eq!((refusal.number(), refusal.place()), (12, Some(Place::Second)));
/// assert_eq!(u32::from(refusal), 12 + 256);
/// assert_eq!(refusal.to_string(), "refusal 12: the second row number is not below the order");
/// ```
#[derive(Clone, Copy, Debug, PartialEq, Eq, Hash)]
#[non_exhaustive]
pub enum Refusal {
    /// 2: the float determinant compares equal to zero.
    Singular,
    /// 3: an input slice has the wrong length.
    InputLength,
    /// 4: the output slice has the wrong length.
    OutputLength,
    /// 5: the order is not one that the operation takes.
    Order,
    /// 6: an entry is not a whole number of magnitude at most 1024.
    NotWhole,
    /// 11: the first or the second column number is not below the order.
    Column(Place),
    /// 12: the first or the second row number is not below the order. A lone row number is the first.
    Row(Place),
    /// 20: the bytes end inside the component record.
    RecordEnds,
    /// 21: more than one of the scale flags 0x0008, 0x0040 and 0x0080 is set.
    ScaleFlags,
    /// 22: the offsets are point numbers, since the flag 0x0002 is clear.
    PointNumbers,
    /// An answer that this crate doesn't know. A library of the version that it is written for gives none.
    Unknown(u32),
}

impl Refusal {
    /// The number of the cause: 11 for either column, 12 for either row.
    ///
    /// Of an answer that is not known it is `answer & 255`, which may be the number of a known cause: look for `Unknown`
    /// first.
    ///
    /// ```
    /// use migthumo::{Place, Refusal};
    ///
    /// assert_eq!(Refusal::NotWhole.number(), 6);
    /// assert_eq!(Refusal::Column(Place::First).number(), 11);
    /// assert_eq!(Refusal::Column(Place::Second).number(), 11);
    /// ```
    #[inline]
    #[must_use]
    pub const fn number(self) -> u32 {
        self.answer() & 255
    }

    /// Which of the column or row numbers it is that is not below the order; no other cause has a place.
    ///
    /// ```
    /// use migthumo::{Place, Refusal};
    ///
    /// assert_eq!(Refusal::Row(Place::First).place(), Some(Place::First));
    /// assert_eq!(Refusal::Singular.place(), None);
    /// ```
    #[inline]
    #[must_use]
    pub const fn place(self) -> Option<Place> {
        match self {
            Refusal::Column(place) | Refusal::Row(place) => Some(place),
            _ => None,
        }
    }

    /// What the library answers for this cause: its number, and 256 more for the second place.
    ///
    /// ```
    /// use migthumo::{Place, Refusal};
    ///
    /// assert_eq!(Refusal::NotWhole.answer(), 6);
    /// assert_eq!(Refusal::Column(Place::First).answer(), 11);
    /// assert_eq!(Refusal::Column(Place::Second).answer(), 267);
    /// ```
    #[inline]
    #[must_use]
    pub const fn answer(self) -> u32 {
        match self {
            Refusal::Singular => 2,
            Refusal::InputLength => 3,
            Refusal::OutputLength => 4,
            Refusal::Order => 5,
            Refusal::NotWhole => 6,
            Refusal::Column(Place::First) => 11,
            Refusal::Row(Place::First) => 12,
            Refusal::RecordEnds => 20,
            Refusal::ScaleFlags => 21,
            Refusal::PointNumbers => 22,
            Refusal::Column(Place::Second) => 267,
            Refusal::Row(Place::Second) => 268,
            Refusal::Unknown(answer) => answer,
        }
    }

    /// The cause that the library answers so, where this crate knows one.
    ///
    /// ```
    /// use migthumo::{Place, Refusal};
    ///
    /// assert_eq!(Refusal::from_answer(5), Some(Refusal::Order));
    /// assert_eq!(Refusal::from_answer(268), Some(Refusal::Row(Place::Second)));
    /// assert_eq!(Refusal::from_answer(0), None);
    /// assert_eq!(Refusal::from_answer(1), None);
    /// ```
    #[inline]
    #[must_use]
    pub const fn from_answer(answer: u32) -> Option<Refusal> {
        match answer {
            2 => Some(Refusal::Singular),
            3 => Some(Refusal::InputLength),
            4 => Some(Refusal::OutputLength),
            5 => Some(Refusal::Order),
            6 => Some(Refusal::NotWhole),
            11 => Some(Refusal::Column(Place::First)),
            12 => Some(Refusal::Row(Place::First)),
            20 => Some(Refusal::RecordEnds),
            21 => Some(Refusal::ScaleFlags),
            22 => Some(Refusal::PointNumbers),
            267 => Some(Refusal::Column(Place::Second)),
            268 => Some(Refusal::Row(Place::Second)),
            _ => None,
        }
    }

    /// The cause in words.
    const fn words(self) -> &'static str {
        match self {
            Refusal::Singular => "the determinant compares equal to zero",
            Refusal::InputLength => "an input slice has the wrong length",
            Refusal::OutputLength => "the output slice has the wrong length",
            Refusal::Order => "the order is not one that the operation takes",
            Refusal::NotWhole => "an entry is not a whole number of magnitude at most 1024",
            Refusal::Column(Place::First) => "the first column number is not below the order",
            Refusal::Row(Place::First) => "the first row number is not below the order",
            Refusal::RecordEnds => "the bytes end inside the record",
            Refusal::ScaleFlags => "more than one of the scale flags 0x0008, 0x0040 and 0x0080 is set",
            Refusal::PointNumbers => "the offsets are point numbers: flag 0x0002 is clear",
            Refusal::Column(Place::Second) => "the second column number is not below the order",
            Refusal::Row(Place::Second) => "the second row number is not below the order",
            Refusal::Unknown(_) => "its cause is not known to this crate",
        }
    }
}

/// The number and the cause in words, which name the place. An answer that is not known is shown whole.
impl fmt::Display for Refusal {
    fn fmt(&self, f: &mut fmt::Formatter<'_>) -> fmt::Result {
        let number = match *self {
            Refusal::Unknown(answer) => answer,
            known => known.number(),
        };
        write!(f, "refusal {number}: {}", self.words())
    }
}

impl Error for Refusal {}

/// What the library answers for the cause: [`Refusal::answer`].
impl From<Refusal> for u32 {
    #[inline]
    fn from(refusal: Refusal) -> u32 {
        refusal.answer()
    }
}

/// The cause that the library answers so; any other answer, 0 and 1 among them, is an [`UnknownAnswer`].
impl TryFrom<u32> for Refusal {
    type Error = UnknownAnswer;

    #[inline]
    fn try_from(answer: u32) -> Result<Refusal, UnknownAnswer> {
        Refusal::from_answer(answer).ok_or(UnknownAnswer(answer))
    }
}

/// An answer other than those of the refusals that this crate knows, 2 to 6, 11, 12, 267 and 268, and 20 to 22, those of
/// a component record, which its words don't name.
///
/// ```
/// use migthumo::Refusal;
///
/// let error = Refusal::try_from(7).unwrap_err();
/// assert_eq!(error.answer(), 7);
/// assert_eq!(error.to_string(), "7 is not the answer of a refusal: 2 to 6, 11, 12, 267 or 268");
/// ```
#[derive(Clone, Copy, Debug, PartialEq, Eq, Hash)]
pub struct UnknownAnswer(u32);

impl UnknownAnswer {
    /// The answer.
    #[inline]
    #[must_use]
    pub const fn answer(self) -> u32 {
        self.0
    }
}

impl fmt::Display for UnknownAnswer {
    fn fmt(&self, f: &mut fmt::Formatter<'_>) -> fmt::Result {
        write!(f, "{} is not the answer of a refusal: 2 to 6, 11, 12, 267 or 268", self.0)
    }
}

impl Error for UnknownAnswer {}
