//! Request R-1's rule for a floor, over document 01's rule for one record (rule_plan.rs), and what each way to ask for
//! one must answer.

use crate::ours::floor_room::{FloorRoom, Piece, counts};
use crate::ours::plans::PlanCall;
use crate::rule_plan::{self, PlanOutcome, TOO_FEW_BYTES};

/// "the matrix, the bytes used and the number of records accepted", and 0 or the refusal's word.
#[derive(Clone, Copy, Debug, PartialEq, Eq)]
pub struct Floor {
    pub word: u32,
    pub used: usize,
    pub records: u64,
    pub cells: [u8; 9],
}

impl Floor {
    /// "An empty slice is accepted with nothing used", and the cells as they came.
    pub fn empty(cells: [u8; 9]) -> Self {
        Floor {
            word: 0,
            used: 0,
            records: 0,
            cells,
        }
    }

    /// "the same as feeding them one by one and stopping at the first refused one; then the matrix holds all records
    /// before it": of all bytes that have come, those accepted already among them.
    pub fn fed(mut self, bytes: &[u8]) -> Self {
        self.word = 0;
        while self.used < bytes.len() {
            match rule_plan::record(&self.cells, &bytes[self.used..]) {
                Ok((used, cells)) => {
                    self.used += used as usize;
                    self.records += 1;
                    self.cells = cells;
                }
                Err(word) => {
                    self.word = word;
                    return self;
                }
            }
        }
        self
    }

    /// More may come behind a part of a record.
    fn pushed_word(&self) -> u32 {
        match self.word {
            TOO_FEW_BYTES => 0,
            word => word,
        }
    }

    fn room(&self) -> FloorRoom {
        FloorRoom {
            answer: [self.used as u64, self.records],
            cells: self.cells,
        }
    }
}

pub fn floor(cells: [u8; 9], bytes: &[u8]) -> Floor {
    Floor::empty(cells).fed(bytes)
}

/// A floor in one call, or one by one.
pub fn whole(call: &PlanCall) -> PlanOutcome {
    let room = FloorRoom::from_le_bytes(&call.out);
    let floor = floor(room.cells, &call.bytes);
    outcome(call, &floor, Vec::new())
}

/// After each piece the answer is that of one call with all bytes that have come.
pub fn in_pieces(call: &PlanCall) -> PlanOutcome {
    let mut floor = Floor::empty(FloorRoom::from_le_bytes(&call.out).cells);
    let mut pieces = Vec::new();
    let mut end = 0;
    for count in counts(&call.out) {
        end += count;
        floor = floor.fed(&call.bytes[..end]);
        let piece = Piece {
            pushed: floor.pushed_word(),
            word: floor.word,
            room: floor.room(),
        };
        pieces.extend(piece.to_le_bytes());
    }
    outcome(call, &floor, pieces)
}

fn outcome(call: &PlanCall, floor: &Floor, pieces: Vec<u8>) -> PlanOutcome {
    PlanOutcome {
        word: floor.word,
        out: [floor.room().to_le_bytes(), pieces].concat(),
        bytes: call.bytes.clone(),
    }
}

#[cfg(test)]
mod tests {
    use super::*;
    use crate::rule_plan::BAD_KIND;

    /// A node inside both, and an edge on both boundaries.
    const NODE: [u8; 9] = [0, 7, 1, 1, 1, 1, 0, 0, 0];
    const EDGE: [u8; 11] = [0, 9, 1, 2, 0, 2, 0, 0, 2, 0, 0];
    const START: [u8; 9] = [0, 0, 0, 0, 0, 0, 0, 0, 3];

    #[test]
    fn nothing_is_accepted_and_changes_nothing() {
        let cells = [0, 1, 2, 3, 4, 5, 254, 255, 9];
        assert_eq!(floor(cells, &[]), Floor::empty(cells));
        let refused = floor(cells, &[0]);
        assert_eq!((refused.word, refused.cells), (TOO_FEW_BYTES, cells));
    }

    #[test]
    fn the_records_before_a_refused_one_stay() {
        let bytes = [&NODE[..], &EDGE, &[0, 2, 1, 9], &NODE].concat();
        let due = Floor {
            word: BAD_KIND,
            used: 20,
            records: 2,
            cells: [1, 0, 0, 0, 2, 0, 0, 0, 3],
        };
        assert_eq!(floor(START, &bytes), due);
    }

    #[test]
    fn a_floor_in_pieces_is_one_floor() {
        let bytes = [&NODE[..], &EDGE, &[255, 255, 1]].concat();
        for cut in 0..=bytes.len() {
            let part = floor(START, &bytes[..cut]);
            assert_eq!(part.fed(&bytes), floor(START, &bytes));
            assert_eq!(part.pushed_word(), 0);
        }
    }
}
