//! The sample's lines of floors, by request R-1's rule: in one call, and in two pieces.

use crate::floor_pieces::{accepted_node, any_floor, floor, quiet_floor};
use crate::ours::plans::{PlanCall, PlanOp};
use crate::plan_pieces::{edge_record, one_a_refusal};
use crate::random::Random;
use crate::sample_line::MOST_GIVEN;

/// Of its own, so that the lines above don't hang on these.
const SEED: u64 = 10;

pub const HEAD: &str = "\
# A misonkandi_floor, the floor given; due are the nine cells, then the bytes used and the records accepted, 8 bytes
# each. Y misonkandi_start on the cells lent, misonkandi_push of as many bytes as the dimension says, misonkandi_push of
# the rest, misonkandi_finish: the word is the last one's, and the same is due.
# A, Y: request R-1's rule (oracle/src/rule_floor.rs) over document 01's for one record; the crate has no floors.
";

pub fn calls() -> Vec<PlanCall> {
    let random = &mut Random::new(SEED);
    let mut calls = Vec::new();
    starts(random, &mut calls);
    ended(random, &mut calls);
    refusals(random, &mut calls);
    long_records(random, &mut calls);
    several(random, &mut calls);
    calls
}

fn in_one_call(cells: [u8; 9], bytes: &[u8]) -> PlanCall {
    PlanCall::floor(PlanOp::Floor, cells, bytes.to_vec())
}

/// The first piece of so many bytes; a line has one byte for that.
fn in_two_pieces(cells: [u8; 9], first: usize, bytes: &[u8]) -> PlanCall {
    assert!(first <= 255, "too long for a line");
    PlanCall::pieces(cells, &[first, bytes.len() - first], bytes.to_vec())
}

/// Nothing, a part of a record, a refused record and an accepted one on cells of all kinds.
fn starts(random: &mut Random, calls: &mut Vec<PlanCall>) {
    let edge = edge_record(random);
    for cells in [
        [0, 1, 2, 3, 4, 5, 127, 128, 255],
        [255; 9],
        [0; 9],
        random.cells_above_3(),
    ] {
        for bytes in [&[][..], &[0], &[0, 2, 1, 3], &edge] {
            calls.push(in_one_call(cells, bytes));
            calls.push(in_two_pieces(cells, bytes.len() / 2, bytes));
        }
    }
}

/// Three small records, ended at every third byte; and whole, in two pieces at every third byte.
fn ended(random: &mut Random, calls: &mut Vec<PlanCall>) {
    let node = accepted_node(random, 1);
    let whole = [&edge_record(random)[..], &node, &quiet_floor(random, 1)].concat();
    for place in (1..=whole.len()).step_by(3) {
        calls.push(in_one_call(random.cells(), &whole[..place]));
        calls.push(in_two_pieces(random.cells(), place, &whole));
    }
}

/// Each number behind two accepted records, with one after it.
fn refusals(random: &mut Random, calls: &mut Vec<PlanCall>) {
    for bad in one_a_refusal(2) {
        let bytes = [quiet_floor(random, 2), bad, edge_record(random)].concat();
        calls.push(in_one_call(random.cells(), &bytes));
        let first = random.below(bytes.len());
        calls.push(in_two_pieces(random.cells(), first, &bytes));
    }
}

/// The longest accepted record, and length fields of more, whole and not.
fn long_records(random: &mut Random, calls: &mut Vec<PlanCall>) {
    let edge = edge_record(random);
    let longest = accepted_node(random, 32);
    let mut add = |bytes: &[u8], first: usize| {
        calls.push(in_one_call([0; 9], bytes));
        calls.push(in_two_pieces([0; 9], first, bytes));
    };
    let both = [&edge[..], &longest, &edge].concat();
    add(&both, 12);
    add(&both[..both.len() - 12], 255);
    for (length, kind, count) in [
        (487, 2, 490),
        (488, 1, 490),
        (489, 1, 491),
        (489, 3, 490),
        (490, 2, 492),
        (500, 1, 520),
        (65_535, 1, 580),
    ] {
        let mut long = u16::to_be_bytes(length).to_vec();
        long.extend([1, kind, 1, 1, 0, 0, 32]);
        long.resize(count, 1);
        add(&[&edge[..], &long].concat(), 12);
    }
}

/// Any that a line has room for.
fn several(random: &mut Random, calls: &mut Vec<PlanCall>) {
    let count = calls.len() + 30;
    while calls.len() < count {
        let damaged = random.below(2) == 0;
        let bytes = match random.below(4) {
            0 => floor(random, 3),
            _ => any_floor(random, 6, damaged),
        };
        if bytes.len() > MOST_GIVEN {
            continue;
        }
        calls.push(in_one_call(random.cells(), &bytes));
        let first = random.below(bytes.len().min(255) + 1);
        calls.push(in_two_pieces(random.cells(), first, &bytes));
    }
}
