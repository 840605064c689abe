//! `set`, `set_at_least` and transposing.

use super::Run;
use crate::ours::{Call, Op};
use crate::pieces::{MATRICES, matrix_by_number};

/// All four dimensions, and some numbers above them.
const DIMENSIONS: [u8; 10] = [0, 1, 2, 3, 4, 5, 77, 127, 128, 255];

/// Codes above 3; some are 0 to 3 in their low byte or low half.
const BAD_CODES: [u32; 12] = [
    4,
    5,
    7,
    100,
    255,
    256,
    257,
    259,
    65_536,
    65_538,
    0x8000_0001,
    u32::MAX,
];

pub fn compare(run: &mut Run) {
    for (op, kinds) in [(Op::Set, SET_KINDS), (Op::SetAtLeast, AT_LEAST_KINDS)] {
        every_place(run, op, kinds[0]);
        bad_codes(run, op, kinds[1]);
        numbers_above_3(run, op, kinds[2]);
    }
    transposing(run);
}

const SET_KINDS: [&str; 3] = [
    "set, every (a, b) of 0 to 3",
    "set, a code above 3",
    "set, numbers above 3",
];
const AT_LEAST_KINDS: [&str; 3] = [
    "set_at_least, every (a, b) of 0 to 3",
    "set_at_least, a code above 3",
    "set_at_least, numbers above 3",
];

fn every_place(run: &mut Run, op: Op, kind: &'static str) {
    run.begin(kind);
    for a in 0..4 {
        for b in 0..4 {
            for dimension in DIMENSIONS {
                for _ in 0..run.times(500) {
                    let cells = run.random.cells();
                    run.ask(Call::at(op, cells, a, b, dimension));
                }
            }
        }
    }
}

fn bad_codes(run: &mut Run, op: Op, kind: &'static str) {
    run.begin(kind);
    for bad in BAD_CODES {
        for other in (0..4).chain(BAD_CODES) {
            for dimension in DIMENSIONS {
                for (a, b) in [(bad, other), (other, bad)] {
                    let cells = run.random.cells();
                    run.ask(Call::at(op, cells, a, b, dimension));
                    let cells = run.random.cells_above_3();
                    run.ask(Call::at(op, cells, a, b, dimension));
                }
            }
        }
    }
}

fn numbers_above_3(run: &mut Run, op: Op, kind: &'static str) {
    run.begin(kind);
    for _ in 0..run.times(20_000) {
        let cells = run.random.cells_above_3();
        let (a, b) = (run.random.below(4) as u32, run.random.below(4) as u32);
        let dimension = run.random.pick(&DIMENSIONS);
        run.ask(Call::at(op, cells, a, b, dimension));
    }
}

/// The crate doesn't transpose: document 01's plain definition decides.
fn transposing(run: &mut Run) {
    run.begin("transposing, every matrix");
    for number in 0..MATRICES {
        run.ask(Call::plain(Op::Transpose, matrix_by_number(number)));
    }
    run.begin("transposing, numbers above 3");
    for _ in 0..run.times(20_000) {
        let cells = run.random.cells_above_3();
        run.ask(Call::plain(Op::Transpose, cells));
    }
}
