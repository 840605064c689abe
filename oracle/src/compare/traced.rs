//! Traced matrices: records one after the other and floors, from a start and with numbers given, also near the last
//! number; and transposing. Held to request R-7's sentence, read anew (rule_traced.rs).

use super::Run;
use crate::floor_pieces::{any_floor, any_floor_of, floor, floor_of, quiet_floor};
use crate::ours::plans::{PlanCall, PlanOp};
use crate::ours::traced_room::TracedRoom;
use crate::plan_pieces::{Version, edge_record, record};

/// Cells that are set up one by one: all dimensions, and numbers above.
const VALUES: [u8; 7] = [0, 1, 2, 3, 4, 5, 255];
/// How many numbers may be left.
const LEFT: [u32; 8] = [0, 1, 2, 3, 8, 9, 10, 40];

pub fn compare(run: &mut Run) {
    each_cell(run);
    one_by_one(run);
    floors(run);
    near_the_end(run);
    transposing(run);
}

/// A record that raises one cell to a dimension: a node, a line, an area with only its lefts.
fn raising(cell: usize, dimension: u8) -> Vec<u8> {
    let (a, b) = (cell as u8 / 3 + 1, cell as u8 % 3 + 1);
    match dimension {
        1 => record(1, &[a, b, 0, 0, 0]),
        2 => record(2, &[0, a, 0, 0, b, 0, 0]),
        _ => record(2, &[1, 0, a, 0, 0, b, 0]),
    }
}

fn numbers(run: &mut Run, count: u32) -> [u32; 10] {
    std::array::from_fn(|k| match k {
        9 => count,
        _ => run.random.next() as u32,
    })
}

/// Every cell from every value to every dimension, with numbers left and not.
fn each_cell(run: &mut Run) {
    run.begin("traced, one cell, every value to every dimension");
    for cell in 0..9 {
        for value in VALUES {
            for dimension in 1..=3 {
                for left in LEFT {
                    let mut cells = run.random.cells();
                    cells[cell] = value;
                    let numbers = numbers(run, u32::MAX - left);
                    let bytes = raising(cell, dimension);
                    for op in [PlanOp::TracedRecord, PlanOp::TracedFloor] {
                        run.ask_plan(PlanCall::traced(op, cells, numbers, bytes.clone()));
                    }
                }
            }
        }
    }
}

/// Runs of records of both versions, each poured into what the one before it left, refused ones between them.
fn one_by_one(run: &mut Run) {
    run.begin("traced, record after record from a start");
    for number in 0..run.times(400) {
        let cells = match number % 4 {
            0 => run.random.cells_above_3(),
            1 => [0; 9],
            _ => run.random.cells(),
        };
        let mut room = TracedRoom::on(cells, [0; 10]);
        for _ in 0..run.random.below(40) {
            let bytes = match run.random.below(5) {
                0 => any_floor_of(&mut run.random, Version::either, 2, true),
                1 => edge_record(&mut run.random),
                2 => floor_of(&mut run.random, Version::either, 1),
                _ => {
                    let cell = run.random.below(9);
                    raising(cell, 1 + run.random.below(3) as u8)
                }
            };
            let call = PlanCall::traced(PlanOp::TracedRecord, room.cells, room.numbers, bytes);
            let reply = run.answered(&[call]);
            room = TracedRoom::from_le_bytes(&reply[0].out);
        }
    }
}

/// Good and damaged ones, on cells and numbers of all kinds.
fn floors(run: &mut Run) {
    run.begin("traced, floors of 0 to 64 records, good and damaged");
    for count in 0..=64 {
        for number in 0..run.times(30) {
            let bytes = match number % 3 {
                0 => floor(&mut run.random, count),
                1 => quiet_floor(&mut run.random, count),
                _ => any_floor(&mut run.random, count.max(1), true),
            };
            let cells = match number % 5 {
                0 => run.random.cells_above_3(),
                _ => run.random.cells(),
            };
            let numbers = match number % 2 {
                0 => [0; 10],
                _ => numbers(run, number as u32),
            };
            run.ask_plan(PlanCall::traced(PlanOp::TracedFloor, cells, numbers, bytes));
        }
    }
}

fn near_the_end(run: &mut Run) {
    run.begin("traced, floors with few numbers left");
    for left in 0..=24 {
        for number in 0..run.times(120) {
            let bytes = match number % 3 {
                0 => floor(&mut run.random, 16),
                1 => quiet_floor(&mut run.random, 24),
                _ => any_floor(&mut run.random, 24, true),
            };
            let numbers = numbers(run, u32::MAX - left);
            let cells = run.random.cells();
            for op in [PlanOp::TracedFloor, PlanOp::TracedRecord] {
                run.ask_plan(PlanCall::traced(op, cells, numbers, bytes.clone()));
            }
        }
    }
}

fn transposing(run: &mut Run) {
    run.begin("traced, transposing");
    for number in 0..run.times(20_000) {
        let cells = match number % 3 {
            0 => run.random.nine_bytes(),
            _ => run.random.cells(),
        };
        let count = run.random.next() as u32;
        let numbers = numbers(run, count);
        run.ask_plan(PlanCall::traced(
            PlanOp::TracedTranspose,
            cells,
            numbers,
            Vec::new(),
        ));
    }
}
