//! One case of the sample as a line of text, as crates/replay/src/case.rt reads it.

use std::fmt::Write;

/// What a call is lent and given, and what must come of it. What a call doesn't have is 0 or empty.
#[derive(Default)]
pub struct Case<'a> {
    pub cells: [u8; 9],
    pub word: u32,
    pub a: u32,
    pub b: u32,
    pub dimension: u8,
    pub given: &'a [u8],
    /// What must stand afterwards in what the call may write.
    pub due: &'a [u8],
}

/// The most bytes that replay takes as given.
pub const MOST_GIVEN: usize = 600;
/// The most of a report and a buffer together.
pub const MOST_CONVERTED: usize = 100;
/// The most bytes of a whole case.
const MOST: usize = 1280;

pub const HEAD: &str = "\
# Stored answers for the C interface, a case to a line; our library was asked for none of them.
# The whole file is made again by:  sh oracle/samples.sh
# A line is a letter for the call, then bytes in hex: nine cells lent (0, 1, 2, 3 for F, 0, 1, 2), the answer's word (4
# bytes), two numbers a and b (4 each), a dimension, the count of bytes given (2), the bytes given, and what must stand
# afterwards in what the call may write. Numbers have their high byte first. Zeros at the end of a line are left off.
# A word below 80000000 is an answer; a refusal is 80000000 plus 256 times its number plus the bad byte's place; ffffffff
# says that there is no such row. The crate has no numbers and no places: these are document 01's.
";

impl Case<'_> {
    pub fn write(&self, lines: &mut String, letter: char) {
        assert!(self.given.len() <= MOST_GIVEN, "too long for replay");
        let mut bytes = self.cells.to_vec();
        bytes.extend(self.word.to_be_bytes());
        bytes.extend(self.a.to_be_bytes());
        bytes.extend(self.b.to_be_bytes());
        bytes.push(self.dimension);
        bytes.extend((self.given.len() as u16).to_be_bytes());
        bytes.extend(self.given);
        bytes.extend(self.due);
        assert!(bytes.len() <= MOST, "too long for replay");
        let kept = bytes.iter().rposition(|byte| *byte != 0);
        lines.push(letter);
        for byte in &bytes[..kept.map_or(0, |last| last + 1)] {
            write!(lines, "{byte:02x}").expect("a string can be written");
        }
        lines.push('\n');
    }
}
