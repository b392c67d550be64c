//! When two answers count as the same.

use crate::list::Answer;

/// How two numbers are compared.
#[derive(Clone, Copy, PartialEq)]
pub enum Rule {
    /// All 64 bits, those of a NaN too: what only moves numbers.
    Bits,
    /// All 64 bits, but any NaN is the same as any other: arithmetic.
    Numbers,
}

impl Rule {
    /// Whether two numbers are the same.
    pub fn same_number(self, a: f64, b: f64) -> bool {
        a.to_bits() == b.to_bits() || (self == Rule::Numbers && a.is_nan() && b.is_nan())
    }

    /// Whether two answers are the same.
    pub fn same(self, a: &Answer, b: &Answer) -> bool {
        match (a, b) {
            (Answer::Given(a), Answer::Given(b)) => {
                a.len() == b.len() && a.iter().zip(b).all(|(a, b)| self.same_number(*a, *b))
            }
            (Answer::Number(a), Answer::Number(b)) => a == b,
            (Answer::Refused(a), Answer::Refused(b)) => a == b,
            _ => false,
        }
    }
}
