//! Request R-7's rule, read from its sentence: every matrix of a run is kept, and at its end a cell's number is that of
//! the earliest record after which the cell had its present dimension. Over document 01's rule for one record
//! (rule_plan.rs).

use crate::ours::plans::{PlanCall, PlanOp};
use crate::ours::traced_room::TracedRoom;
use crate::rule::refusal;
use crate::rule_plan::{self, PlanOutcome};

/// "15 when no number is left, after every other check of the record."
pub const NO_NUMBER_LEFT: u32 = refusal(15);

/// A run of accepted records, from a matrix that numbers were given for already.
struct Run {
    given: [u32; 10],
    /// The matrices after 0, 1, .. records of this run.
    after: Vec<[u8; 9]>,
}

impl Run {
    fn from(room: &TracedRoom) -> Self {
        Run {
            given: room.numbers,
            after: vec![room.cells],
        }
    }

    fn cells(&self) -> [u8; 9] {
        *self.after.last().expect("a start")
    }

    fn records(&self) -> u64 {
        self.after.len() as u64 - 1
    }

    /// The bytes used, or the refusal's word.
    fn pour(&mut self, bytes: &[u8]) -> Result<u32, u32> {
        let (used, cells) = rule_plan::record(&self.cells(), bytes)?;
        if u64::from(self.given[9]) + self.records() == u64::from(u32::MAX) {
            return Err(NO_NUMBER_LEFT);
        }
        self.after.push(cells);
        Ok(used)
    }

    /// "the number of the earliest accepted record after which the cell had its present dimension, counting from 1": the
    /// first of this run that has it, or the number given where the run's start had it. A number above 3 is read as 3.
    fn number(&self, cell: usize) -> u32 {
        let read = |cells: &[u8; 9]| cells[cell].min(3);
        let present = read(&self.cells());
        let first = self.after.iter().position(|cells| read(cells) == present);
        match first.expect("the last at least") {
            0 => self.given[cell],
            k => self.given[9] + k as u32,
        }
    }

    fn numbers(&self) -> [u32; 10] {
        std::array::from_fn(|k| match k {
            9 => self.given[9] + self.records() as u32,
            cell => self.number(cell),
        })
    }
}

/// "Transposing moves them with their cells": row and column exchanged.
fn transposed(room: &TracedRoom) -> TracedRoom {
    let other = |k: usize| k % 3 * 3 + k / 3;
    TracedRoom {
        answer: room.answer,
        numbers: std::array::from_fn(|k| room.numbers[if k == 9 { 9 } else { other(k) }]),
        cells: std::array::from_fn(|k| room.cells[other(k)].min(3)),
    }
}

pub fn outcome(call: &PlanCall) -> PlanOutcome {
    let mut room = TracedRoom::from_le_bytes(&call.out);
    let mut run = Run::from(&room);
    let word = match call.op {
        PlanOp::TracedRecord => run.pour(&call.bytes).unwrap_or_else(|word| word),
        PlanOp::TracedFloor => {
            let (word, used) = floor(&mut run, &call.bytes);
            room.answer = [used as u64, run.records()];
            word
        }
        _ => {
            return left(call, 0, &transposed(&room));
        }
    };
    (room.numbers, room.cells) = (run.numbers(), run.cells());
    left(call, word, &room)
}

/// "the same as one by one": 0 or the refusal's word, and the bytes used.
fn floor(run: &mut Run, bytes: &[u8]) -> (u32, usize) {
    let mut used = 0;
    while used < bytes.len() {
        match run.pour(&bytes[used..]) {
            Ok(more) => used += more as usize,
            Err(word) => return (word, used),
        }
    }
    (0, used)
}

fn left(call: &PlanCall, word: u32, room: &TracedRoom) -> PlanOutcome {
    PlanOutcome {
        word,
        out: room.to_le_bytes(),
        bytes: call.bytes.clone(),
    }
}

#[cfg(test)]
mod tests {
    use super::*;

    const NODE: [u8; 9] = [0, 7, 1, 1, 1, 1, 0, 0, 0];
    /// An area edge inside both to its left.
    const EDGE: [u8; 11] = [0, 9, 1, 2, 1, 0, 1, 0, 0, 1, 0];
    const START: [u8; 9] = [0, 0, 0, 0, 0, 0, 0, 0, 3];

    fn floored(cells: [u8; 9], numbers: [u32; 10], bytes: &[u8]) -> (u32, TracedRoom) {
        let call = PlanCall::traced(PlanOp::TracedFloor, cells, numbers, bytes.to_vec());
        let due = outcome(&call);
        (due.word, TracedRoom::from_le_bytes(&due.out))
    }

    #[test]
    fn the_last_record_that_changed_the_cell() {
        let bytes = [&NODE[..], &NODE, &EDGE, &NODE].concat();
        let (word, room) = floored(START, [0; 10], &bytes);
        assert_eq!((word, room.answer), (0, [38, 4]));
        assert_eq!(room.numbers, [3, 0, 0, 0, 0, 0, 0, 0, 0, 4]);
    }

    #[test]
    fn a_larger_number_that_becomes_3_is_no_change() {
        let (_, room) = floored([200; 9], [7; 10], &EDGE);
        assert_eq!((room.cells, room.numbers[0]), ([3; 9], 7));
    }

    #[test]
    fn fifteen_comes_last() {
        let mut numbers = [1; 10];
        numbers[9] = u32::MAX - 1;
        let (word, room) = floored(START, numbers, &[NODE, NODE].concat());
        assert_eq!((word, room.answer), (NO_NUMBER_LEFT, [9, 1]));
        assert_eq!(room.numbers[0], u32::MAX);
        let (word, _) = floored(START, [u32::MAX; 10], &[0, 2, 1, 3]);
        assert_eq!(word, rule_plan::BAD_KIND);
    }
}
