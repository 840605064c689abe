//! The sample's lines of traced matrices, by request R-7's rule: records, floors and transposing.

use crate::floor_pieces::{any_floor, floor, quiet_floor};
use crate::ours::plans::{PlanCall, PlanOp};
use crate::plan_pieces::{edge_record, one_a_refusal};
use crate::random::Random;
use crate::sample_line::MOST_GIVEN;

/// Of its own, so that the lines above don't hang on these.
const SEED: u64 = 11;
/// What is given has ten numbers before the bytes.
const MOST: usize = MOST_GIVEN - 40;

pub const HEAD: &str = "\
# x misonkandi_traced_record, f misonkandi_traced_floor, t misonkandi_traced_transpose: given are the ten numbers, 4 bytes
# each, then the record or the floor; due are the nine cells, the ten numbers and, of a floor, the bytes used and the
# records accepted, 8 bytes each.
# x, f, t: request R-7's rule (oracle/src/rule_traced.rs) over document 01's for one record; the crate has no numbers.
";

pub fn calls() -> Vec<PlanCall> {
    let random = &mut Random::new(SEED);
    let mut calls = Vec::new();
    starts(random, &mut calls);
    refusals(random, &mut calls);
    several(random, &mut calls);
    transposing(random, &mut calls);
    calls
}

fn numbers(random: &mut Random, count: u32) -> [u32; 10] {
    std::array::from_fn(|k| match k {
        9 => count,
        _ => random.next() as u32,
    })
}

/// An accepted record on cells of all kinds, with numbers left and not.
fn starts(random: &mut Random, calls: &mut Vec<PlanCall>) {
    let edge = edge_record(random);
    for cells in [[0, 1, 2, 3, 4, 5, 127, 128, 255], [255; 9], [0; 9]] {
        for count in [0, 1, u32::MAX - 1, u32::MAX] {
            let numbers = numbers(random, count);
            for op in [PlanOp::TracedRecord, PlanOp::TracedFloor] {
                calls.push(PlanCall::traced(op, cells, numbers, edge.clone()));
            }
        }
    }
}

/// Each number behind two accepted records, with one after it; and no number left for any of them: 15 comes last.
fn refusals(random: &mut Random, calls: &mut Vec<PlanCall>) {
    for bad in one_a_refusal(3) {
        for left in [0, 1, 2, 5] {
            let numbers = numbers(random, u32::MAX - left);
            let cells = random.cells();
            calls.push(PlanCall::traced(
                PlanOp::TracedRecord,
                cells,
                numbers,
                bad.clone(),
            ));
            let bytes = [quiet_floor(random, 2), bad.clone(), edge_record(random)].concat();
            calls.push(PlanCall::traced(PlanOp::TracedFloor, cells, numbers, bytes));
        }
    }
}

/// Any that a line has room for.
fn several(random: &mut Random, calls: &mut Vec<PlanCall>) {
    let count = calls.len() + 40;
    while calls.len() < count {
        let damaged = random.below(2) == 0;
        let bytes = match random.below(4) {
            0 => floor(random, 2),
            _ => any_floor(random, 8, damaged),
        };
        if bytes.len() > MOST {
            continue;
        }
        let last = random.below(3) as u32;
        let numbers = numbers(random, last);
        calls.push(PlanCall::traced(
            PlanOp::TracedFloor,
            random.cells(),
            numbers,
            bytes,
        ));
    }
}

fn transposing(random: &mut Random, calls: &mut Vec<PlanCall>) {
    for _ in 0..12 {
        let count = random.next() as u32;
        let numbers = numbers(random, count);
        let cells = random.nine_bytes();
        calls.push(PlanCall::traced(
            PlanOp::TracedTranspose,
            cells,
            numbers,
            Vec::new(),
        ));
    }
}
