//! Request R-13's rule, written down apart from the library: a matrix has the name whose pattern it agrees with.

use crate::rule;

/// The eight names in the request's order, then what any other matrix is.
pub const NAMES: [&str; 9] = [
    "disjoint",
    "meet",
    "overlap",
    "equal",
    "inside",
    "coveredBy",
    "contains",
    "covers",
    "none of these",
];

/// "In cell order, T for not F".
pub const PATTERNS: [&str; 8] = [
    "FFTFFTTTT",
    "FFTFTTTTT",
    "TTTTTTTTT",
    "TFFFTFFFT",
    "TFFTFFTTT",
    "TFFTTFTTT",
    "TTTFFTFFT",
    "TTTFTTFFT",
];

pub fn region(cells: &[u8; 9]) -> u32 {
    let agrees = |pattern: &&str| rule::matches(cells, pattern.as_bytes()) == 1;
    PATTERNS.iter().position(agrees).unwrap_or(8) as u32
}

/// The region of a name, or the word for no such row.
pub fn named(name: &[u8]) -> u32 {
    let found = NAMES.iter().position(|known| known.as_bytes() == name);
    found.map_or(rule::NO_SUCH_ROW, |row| row as u32)
}
