//! The early verdict: what no further record can change.

use crate::c;
use crate::matrix::IntersectionMatrix;
use crate::predicate::Predicate;
use crate::refusal::{Refusal, answered};

/// What is known already of an answer, whatever accepted records are still poured into the matrix.
#[derive(Clone, Copy, Debug, PartialEq, Eq, Hash)]
#[must_use]
pub enum Verdict {
    /// Yes now, and after any records.
    YesForGood,
    /// No now, and after any records.
    NoForGood,
    /// Some records would make it a yes, some a no.
    Open,
}

impl Verdict {
    /// The answer, if it is for good.
    #[must_use]
    pub const fn for_good(self) -> Option<bool> {
        match self {
            Verdict::YesForGood => Some(true),
            Verdict::NoForGood => Some(false),
            Verdict::Open => None,
        }
    }

    /// The verdict of a number: 0 no for good, 1 yes for good, 2 open; of another there is none.
    #[must_use]
    pub const fn of(number: u8) -> Option<Verdict> {
        match number {
            0 => Some(Verdict::NoForGood),
            1 => Some(Verdict::YesForGood),
            2 => Some(Verdict::Open),
            _ => None,
        }
    }

    pub(crate) fn of_number(number: u32) -> Verdict {
        match number {
            0 => Verdict::NoForGood,
            1 => Verdict::YesForGood,
            2 => Verdict::Open,
            _ => unreachable!("the library is proved to give no such verdict: {number}"),
        }
    }
}

impl IntersectionMatrix {
    /// What is known of a predicate's answer, whatever records are still accepted. Each of the three answers is given exactly
    /// when it is true, over runs of accepted records.
    ///
    /// ```
    /// use misonkandi::{IntersectionMatrix, Predicate, Verdict};
    ///
    /// let matrix = IntersectionMatrix::from_bytes(b"0FFFFFFF2").unwrap();
    /// assert_eq!(matrix.verdict(Predicate::Intersects), Verdict::YesForGood);
    /// assert_eq!(matrix.verdict(Predicate::Touches), Verdict::NoForGood);
    /// assert_eq!(matrix.verdict(Predicate::Within), Verdict::Open);
    /// ```
    pub fn verdict(&self, predicate: Predicate) -> Verdict {
        Verdict::of_number(c::verdict(&self.cells(), predicate.number()))
    }

    /// The verdicts of all eleven predicates in one call, in the order of [`Predicate::ALL`]. Promised: `TellsEach`,
    /// crates/verdict/specs/Eleven.antt.
    pub fn verdicts(&self) -> [Verdict; 11] {
        let mut numbers = [0; 11];
        c::verdicts(&self.cells(), &mut numbers);
        numbers.map(|number| Verdict::of_number(number.into()))
    }

    /// The same of a pattern, which is checked whole before any cell is looked at.
    ///
    /// Refused: 10 for another count of bytes than nine; 11 with the first bad byte's place.
    pub fn verdict_of_pattern(&self, spec: &str) -> Result<Verdict, Refusal> {
        self.verdict_of_pattern_bytes(spec.as_bytes())
    }

    /// [`verdict_of_pattern`](Self::verdict_of_pattern) of any bytes.
    pub fn verdict_of_pattern_bytes(&self, spec: &[u8]) -> Result<Verdict, Refusal> {
        answered(c::verdict_pattern(&self.cells(), spec)).map(Verdict::of_number)
    }
}
