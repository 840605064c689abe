//! The eleven predicates by name.

use core::error::Error;
use core::fmt;
use core::str::FromStr;

use crate::c;

/// One of the eleven predicates, in the order of document 01's table.
#[derive(Clone, Copy, Debug, PartialEq, Eq, Hash)]
#[allow(missing_docs)]
pub enum Predicate {
    Disjoint,
    Intersects,
    Within,
    Contains,
    EqualTopo,
    CoveredBy,
    Covers,
    ContainsProperly,
    Touches,
    Crosses,
    Overlaps,
}

impl Predicate {
    /// All of them, in order.
    pub const ALL: [Predicate; 11] = [
        Predicate::Disjoint,
        Predicate::Intersects,
        Predicate::Within,
        Predicate::Contains,
        Predicate::EqualTopo,
        Predicate::CoveredBy,
        Predicate::Covers,
        Predicate::ContainsProperly,
        Predicate::Touches,
        Predicate::Crosses,
        Predicate::Overlaps,
    ];

    /// Its place in the order, from 0: the library's number for it.
    #[must_use]
    pub const fn number(self) -> u32 {
        self as u32
    }

    /// Its name in document 01.
    #[must_use]
    pub const fn name(self) -> &'static str {
        match self {
            Predicate::Disjoint => "disjoint",
            Predicate::Intersects => "intersects",
            Predicate::Within => "within",
            Predicate::Contains => "contains",
            Predicate::EqualTopo => "equal_topo",
            Predicate::CoveredBy => "coveredby",
            Predicate::Covers => "covers",
            Predicate::ContainsProperly => "contains_properly",
            Predicate::Touches => "touches",
            Predicate::Crosses => "crosses",
            Predicate::Overlaps => "overlaps",
        }
    }
}

impl fmt::Display for Predicate {
    fn fmt(&self, f: &mut fmt::Formatter<'_>) -> fmt::Result {
        f.pad(self.name())
    }
}

/// A text that is no predicate's name. Document 01 has no number for it, so it is no [`Refusal`](crate::Refusal).
#[derive(Clone, Copy, Debug, PartialEq, Eq, Hash)]
pub struct NoSuchPredicate;

impl fmt::Display for NoSuchPredicate {
    fn fmt(&self, f: &mut fmt::Formatter<'_>) -> fmt::Result {
        f.pad("no predicate has that name")
    }
}

impl Error for NoSuchPredicate {}

/// The predicate of a name, letter for letter.
///
/// ```
/// use misonkandi::{NoSuchPredicate, Predicate};
///
/// assert_eq!("equal_topo".parse(), Ok(Predicate::EqualTopo));
/// assert_eq!("Touches".parse::<Predicate>(), Err(NoSuchPredicate));
/// ```
impl FromStr for Predicate {
    type Err = NoSuchPredicate;

    fn from_str(name: &str) -> Result<Self, NoSuchPredicate> {
        match c::predicate_named(name.as_bytes()) {
            c::NO_SUCH_ROW => Err(NoSuchPredicate),
            row => Ok(Predicate::ALL[row as usize]),
        }
    }
}
