//! Our side: one call of the C interface written down as a record, and the ways to have it answered.
//!
//! Where the library is built for the processor that the oracle runs on, it is linked and called (`linked`). Where the
//! archive is for another one it is linked into a small program that an emulator runs, and the records go through a
//! pipe (`far`). build.rs looks into the archive and decides.

#[cfg(far)]
mod far;
pub mod floor_room;
#[cfg(all(linked, not(far)))]
mod floors;
#[cfg(linked)]
#[cfg_attr(far, allow(dead_code))]
pub mod linked;
pub mod plans;
pub mod shape_room;
#[cfg(all(linked, not(far)))]
mod traced;
pub mod traced_room;

use plans::{PlanCall, PlanReply};

/// The longest text that is asked with.
pub const LONGEST: usize = 24;

/// Bytes on either side of the nine lent ones that no call may touch.
const GUARD: usize = 9;
const GUARD_BYTE: u8 = 0xA5;

#[derive(Clone, Copy, Debug, PartialEq, Eq)]
#[repr(u8)]
pub enum Op {
    Predicates = 0,
    Predicate = 1,
    Matches = 2,
    FromText = 3,
    Raise = 4,
    ToText = 5,
    Set = 6,
    SetAtLeast = 7,
    Transpose = 8,
    Verdict = 9,
    VerdictPattern = 10,
    PredicateNamed = 11,
    Region = 40,
    RegionNamed = 41,
}

/// One call. What an operation doesn't take is 0.
#[derive(Clone, Debug)]
pub struct Call {
    pub op: Op,
    pub cells: [u8; 9],
    /// The predicate's number, or the position code in A.
    pub a: u32,
    pub b: u32,
    pub dimension: u8,
    pub count: usize,
    text: [u8; LONGEST],
}

impl Call {
    pub fn plain(op: Op, cells: [u8; 9]) -> Self {
        Call {
            op,
            cells,
            a: 0,
            b: 0,
            dimension: 0,
            count: 0,
            text: [0; LONGEST],
        }
    }

    pub fn predicate(cells: [u8; 9], which: u32) -> Self {
        Call {
            a: which,
            ..Call::plain(Op::Predicate, cells)
        }
    }

    pub fn verdict(cells: [u8; 9], which: u32) -> Self {
        Call {
            a: which,
            ..Call::plain(Op::Verdict, cells)
        }
    }

    pub fn with_text(op: Op, cells: [u8; 9], given: &[u8]) -> Self {
        let mut text = [0; LONGEST];
        text[..given.len()].copy_from_slice(given);
        Call {
            count: given.len(),
            text,
            ..Call::plain(op, cells)
        }
    }

    pub fn at(op: Op, cells: [u8; 9], a: u32, b: u32, dimension: u8) -> Self {
        Call {
            a,
            b,
            dimension,
            ..Call::plain(op, cells)
        }
    }

    pub fn named(name: &[u8]) -> Self {
        Call::with_text(Op::PredicateNamed, [0; 9], name)
    }

    pub fn text(&self) -> &[u8] {
        &self.text[..self.count]
    }
}

/// What came back: the answer's word, and every byte that was lent.
struct Raw {
    word: u32,
    lent: [u8; 9 + 2 * GUARD],
    text: [u8; LONGEST],
}

/// The answer, the nine bytes that the call may write, and whether any other byte changed.
pub struct Reply {
    pub word: u32,
    pub nine: [u8; 9],
    pub stray: bool,
}

fn guarded(cells: &[u8; 9]) -> [u8; 9 + 2 * GUARD] {
    let mut lent = [GUARD_BYTE; 9 + 2 * GUARD];
    lent[GUARD..GUARD + 9].copy_from_slice(cells);
    lent
}

/// Looks at every byte that was lent. Writing a text out is the one call that writes elsewhere than the cells.
fn reply(call: &Call, raw: &Raw) -> Reply {
    let mut cells = [0; 9];
    cells.copy_from_slice(&raw.lent[GUARD..GUARD + 9]);
    let mut nine = cells;
    let mut kept_text = call.text;
    let mut kept_cells = cells;
    if call.op == Op::ToText {
        nine.copy_from_slice(&raw.text[..9]);
        kept_text[..9].copy_from_slice(&nine);
        kept_cells = call.cells;
    }
    Reply {
        word: raw.word,
        nine,
        stray: raw.lent != guarded(&kept_cells) || raw.text != kept_text,
    }
}

/// The library, ready to be asked.
pub struct Library {
    #[cfg(far)]
    side: far::FarSide,
}

impl Library {
    pub fn open() -> Self {
        Library {
            #[cfg(far)]
            side: far::FarSide::start(),
        }
    }

    /// Answers the calls in order.
    pub fn answer(&mut self, calls: &[Call]) -> Vec<Reply> {
        #[cfg(far)]
        let raws = self.side.answer(calls);
        #[cfg(not(far))]
        let raws = calls.iter().map(linked::answer);
        calls
            .iter()
            .zip(raws)
            .map(|(call, raw)| reply(call, &raw))
            .collect()
    }

    /// Answers the calls on ends, records, reports, outlines, texts and floors in order.
    pub fn answer_plans(&mut self, calls: &[PlanCall]) -> Vec<PlanReply> {
        #[cfg(far)]
        let replies = self.side.answer_plans(calls);
        #[cfg(not(far))]
        let replies = calls.iter().map(plans::answer).collect();
        replies
    }

    /// How the library is reached, for the head of a report.
    pub fn way(&self) -> &'static str {
        if cfg!(far) {
            "in a program of its own that an emulator runs: the library isn't built for this processor"
        } else {
            "linked into this process"
        }
    }
}
