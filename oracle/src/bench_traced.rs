//! The lines of traced matrices: a record, and a floor, beside the same into plain cells, over the C interface.

use crate::bench::Best;
use crate::bench_plans::node;
use crate::floor_pieces::floor;
use crate::ours::plans::{PlanCall, PlanOp};
use crate::ours::traced_room::TracedRoom;
use crate::plan_pieces::Directions;
use crate::random::Random;
use crate::rule_traced;
use std::cell::RefCell;

#[cfg(linked)]
use crate::ours::linked;

/// Nothing of the library can be called on this processor, and nothing of this is.
#[cfg(not(linked))]
mod linked {
    pub fn record(_: &mut [u8; 9], _: &[u8]) -> u32 {
        unreachable!()
    }

    pub fn traced_record(_: &mut [u8; 9], _: &mut [u32; 10], _: &[u8]) -> u32 {
        unreachable!()
    }

    pub fn floor(_: &mut [u8; 9], _: &[u8], _: &mut [u64; 2]) -> u32 {
        unreachable!()
    }

    pub fn traced_floor(_: &mut [u8; 9], _: &mut [u32; 10], _: &[u8], _: &mut [u64; 2]) -> u32 {
        unreachable!()
    }
}

const START: [u8; 9] = [0, 0, 0, 0, 0, 0, 0, 0, 3];
/// On all records of one line together, so that no branch can be learnt by heart.
const RECORDS: usize = 2_000;
/// Short rounds, and many: on a busy machine some of them have the processor for themselves.
const ROUNDS: usize = 600;

type Answer = (u32, [u8; 9], [u32; 10]);

/// A fresh matrix, so that the answers can be held to the rule.
fn traced(op: PlanOp, bytes: &[u8]) -> Answer {
    let (mut cells, mut numbers, mut answer) = (START, [0; 10], [0; 2]);
    let word = match op {
        PlanOp::TracedRecord => linked::traced_record(&mut cells, &mut numbers, bytes),
        _ => linked::traced_floor(&mut cells, &mut numbers, bytes, &mut answer),
    };
    (word, cells, numbers)
}

fn right(op: PlanOp, bytes: &[u8]) -> Answer {
    let due = rule_traced::outcome(&PlanCall::traced(op, START, [0; 10], bytes.to_vec()));
    let room = TracedRoom::from_le_bytes(&due.out);
    (due.word, room.cells, room.numbers)
}

/// A matrix that is kept and lent again and again, as a gateway does; a traced one has its numbers beside it.
struct Kept {
    cells: RefCell<[u8; 9]>,
    numbers: RefCell<[u32; 10]>,
}

impl Kept {
    fn start() -> Self {
        Kept {
            cells: RefCell::new(START),
            numbers: RefCell::new([0; 10]),
        }
    }

    fn plain(&self, op: PlanOp, bytes: &[u8]) -> u32 {
        let cells = &mut self.cells.borrow_mut();
        match op {
            PlanOp::TracedRecord => linked::record(cells, bytes),
            _ => linked::floor(cells, bytes, &mut [0; 2]),
        }
    }

    fn traced(&self, op: PlanOp, bytes: &[u8]) -> u32 {
        let cells = &mut self.cells.borrow_mut();
        let numbers = &mut self.numbers.borrow_mut();
        match op {
            PlanOp::TracedRecord => linked::traced_record(cells, numbers, bytes),
            _ => linked::traced_floor(cells, numbers, bytes, &mut [0; 2]),
        }
    }
}

/// One line: nanoseconds a record. Both take turns, so that a busy machine slows both.
fn measure(name: &str, size: usize, inputs: &[Vec<u8>]) {
    let op = match size {
        1 => PlanOp::TracedRecord,
        _ => PlanOp::TracedFloor,
    };
    let all = inputs
        .iter()
        .all(|bytes| traced(op, bytes) == right(op, bytes));
    assert!(all, "{name}: the library's answers aren't request R-7's");
    let [mut plains, mut traceds] = [(); 2].map(|()| Best::none());
    for _ in 0..ROUNDS {
        let kept = Kept::start();
        plains.round(|bytes: &Vec<u8>| kept.plain(op, bytes), inputs);
        let kept = Kept::start();
        traceds.round(|bytes: &Vec<u8>| kept.traced(op, bytes), inputs);
    }
    let [plains, traceds] = [plains, traceds].map(|best| best.each(inputs.len()) / size as f64);
    println!(
        "| {name} | {plains:.1} | {traceds:.1} | {:.2} |",
        traceds / plains
    );
}

/// A table of its own.
pub(crate) fn measure_all(random: &mut Random) {
    println!();
    println!(
        "Traced matrices, best of {ROUNDS} rounds over {RECORDS} records, nanoseconds a record."
    );
    println!();
    println!("| records | plain | traced | traced / plain |");
    println!("|---|---:|---:|---:|");
    for (name, ends, directions) in [
        ("an isolated edge", None, Directions::Axes),
        (
            "a record of 4 ends, square walls",
            Some(4),
            Directions::Axes,
        ),
        (
            "a record of 8 ends, any directions",
            Some(8),
            Directions::Any,
        ),
        (
            "a record of 32 ends, any directions",
            Some(32),
            Directions::Any,
        ),
    ] {
        let inputs: Vec<Vec<u8>> = (0..RECORDS)
            .map(|_| match ends {
                Some(ends) => node(random, ends, directions).record,
                None => crate::plan_pieces::edge_record(random),
            })
            .collect();
        measure(name, 1, &inputs);
    }
    for size in [10, 100] {
        let inputs: Vec<Vec<u8>> = (0..RECORDS / size).map(|_| floor(random, size)).collect();
        measure(&format!("a floor of {size} mixed records"), size, &inputs);
    }
}
