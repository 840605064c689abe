//! Plan records, written.

use core::fmt;
use core::hash::{Hash, Hasher};
use core::ops::Deref;

use crate::c;
use crate::positions::CoordPos;
use crate::refusal::{Refusal, answered};
use crate::star::{END_BYTES, EdgeEnd, Label, MOST_ENDS, MOST_ENDS_OF_VERSION_1, write_ends};

/// The most bytes that a record has: two of length, eight of a node in version 2, 600 ends.
pub const MOST_RECORD_BYTES: usize = 10 + MOST_ENDS * END_BYTES;

/// The two versions, and the two kinds.
const ONE: u8 = 1;
const TWO: u8 = 2;
const NODE: u8 = 1;
const EDGE: u8 = 2;

/// The bytes of a plan record that the library accepts: [`pour_record`](crate::IntersectionMatrix::pour_record) refuses
/// none, into any matrix.
///
/// What it is written from is refused where its bytes would be, by the library itself: a new record is poured once into a
/// matrix that is thrown away. Nothing is cut to fit.
///
/// A node of at most 32 ends is written in version 1, which has its count in one byte, and one of 33 to 600 in version 2,
/// which has it in two; [`convert_record`](crate::convert_record) writes either as the other. The record holds its bytes
/// itself, so it needs no heap, and room for the longest one, so it is [`MOST_RECORD_BYTES`] large.
///
/// ```
/// use misonkandi::{CoordPos, EdgeEnd, IntersectionMatrix, Label, Record, Refusal, Sides};
///
/// let wall = Sides { on: Some(CoordPos::OnBoundary), left: Some(CoordPos::Inside), right: Some(CoordPos::Outside) };
/// let label = Label { area: true, a: wall, b: Sides::default() };
/// let east = EdgeEnd { dx: 2, dy: 0, label };
///
/// let on = [CoordPos::OnBoundary, CoordPos::Outside];
/// let record = Record::node(on, on.map(Some), &[east])?;
/// assert_eq!(record.len(), 9 + 15);
/// let mut matrix = IntersectionMatrix::empty_disjoint();
/// assert_eq!(matrix.pour_record(&record), Ok(24));
/// assert_eq!(matrix.to_string(), "FF2FF1FF2");
///
/// assert_eq!(Record::node(on, on.map(Some), &[east; 33])?.len(), 10 + 33 * 15); // version 2
/// assert_eq!(Record::node(on, on.map(Some), &[east; 601]), Err(Refusal::Ends));
/// let nowhere = EdgeEnd { dx: 0, ..east };
/// assert_eq!(Record::node(on, on.map(Some), &[nowhere]), Err(Refusal::Direction));
/// # Ok::<(), Refusal>(())
/// ```
#[derive(Clone)]
pub struct Record {
    /// Those past the count are not looked at.
    bytes: [u8; MOST_RECORD_BYTES],
    count: usize,
}

impl Record {
    /// A node: where it lies against A and B, where against their areas (none for one that is no area), and the edges that
    /// end there, in any order.
    ///
    /// Refused: 5 above 600 ends; each end in turn 8, 7; last 9.
    pub fn node(
        on: [CoordPos; 2],
        areas: [Option<CoordPos>; 2],
        ends: &[EdgeEnd],
    ) -> Result<Record, Refusal> {
        let [on_a, on_b] = on.map(|position| CoordPos::code(Some(position)));
        let [area_a, area_b] = areas.map(CoordPos::code);
        let short = ends.len() <= MOST_ENDS_OF_VERSION_1;
        let version = if short { ONE } else { TWO };
        // One byte of the count up to 32, else both, the high one first.
        let number = ends.len().to_be_bytes();
        let number = &number[number.len() - usize::from(version)..];
        let head = [version, NODE, on_a, on_b, area_a, area_b];
        let mut bytes = [0; MOST_RECORD_BYTES];
        let start = 2 + head.len() + number.len();
        bytes[2..8].copy_from_slice(&head);
        bytes[8..start].copy_from_slice(number);
        let count = start + write_ends(ends, &mut bytes[start..])?.len();
        Record::of(bytes, count)
    }

    /// An edge that meets no node, by its label, in version 1.
    ///
    /// Refused: 7 for a line's label with a side.
    pub fn edge(label: Label) -> Result<Record, Refusal> {
        let mut bytes = [0; MOST_RECORD_BYTES];
        bytes[2..4].copy_from_slice(&[ONE, EDGE]);
        bytes[4..11].copy_from_slice(&label.bytes());
        Record::of(bytes, 11)
    }

    /// The record of so many bytes, its length put before what stands behind it, if the library accepts it.
    fn of(mut bytes: [u8; MOST_RECORD_BYTES], count: usize) -> Result<Record, Refusal> {
        let length = (count - 2) as u16; // at most 9,008
        bytes[..2].copy_from_slice(&length.to_be_bytes());
        answered(c::record(&mut [0; 9], &bytes[..count]))?;
        Ok(Record { bytes, count })
    }

    /// Its bytes.
    #[must_use]
    pub fn as_bytes(&self) -> &[u8] {
        &self.bytes[..self.count]
    }
}

impl Deref for Record {
    type Target = [u8];

    fn deref(&self) -> &[u8] {
        self.as_bytes()
    }
}

impl AsRef<[u8]> for Record {
    fn as_ref(&self) -> &[u8] {
        self.as_bytes()
    }
}

/// By their bytes.
impl PartialEq for Record {
    fn eq(&self, other: &Record) -> bool {
        self.as_bytes() == other.as_bytes()
    }
}

impl Eq for Record {}

impl Hash for Record {
    fn hash<H: Hasher>(&self, state: &mut H) {
        self.as_bytes().hash(state);
    }
}

/// Its bytes.
impl fmt::Debug for Record {
    fn fmt(&self, f: &mut fmt::Formatter<'_>) -> fmt::Result {
        f.debug_tuple("Record").field(&self.as_bytes()).finish()
    }
}
