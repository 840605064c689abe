//! The sample's lines of request R-11, as long as a line has room for: bundles and stars of 33 to 40 ends, records of
//! version 2, floors of both versions, and records converted.

use crate::floor_pieces::{accepted_node_of, any_floor_of};
use crate::ours::plans::{PlanCall, PlanOp};
use crate::plan_pieces::{
    ALL_DIRECTIONS, Labels, Version, damaged_record_of, edge_record_of, end, ends, ends_of,
    node_record_of, with_bytes_after,
};
use crate::random::Random;
use crate::rule;
use crate::rule_plan;
use crate::sample_line::MOST_GIVEN;

/// Of its own, so that the lines above don't hang on these.
const SEED: u64 = 11;
/// Each line has room for so many ends, and for so many in a record of version 2.
const STAR: usize = 40;
const NODE: usize = 39;

pub const HEAD: &str = "\
# B, K, N, A, Y: request R-11's calls on more than 32 ends, and records of version 2. A star is lent room for 32 labels, so
# more of them are refusal 12. Joining, completing and raising are the crate's as above: its files have no cap.
# Z misonkandi_convert_record, the record and then the buffer given, a the count of the record's bytes, b the offset; both
# are due: request R-11's rule alone (oracle/src/rule_convert.rs), the crate has no versions.
";

pub fn calls() -> Vec<PlanCall> {
    let random = &mut Random::new(SEED);
    let mut calls = Vec::new();
    stars(random, &mut calls);
    records(random, &mut calls);
    floors(random, &mut calls);
    conversions(random, &mut calls);
    calls
}

fn stars(random: &mut Random, calls: &mut Vec<PlanCall>) {
    let paired = Labels {
        areas: 7,
        nones: 3,
        paired: true,
    };
    for count in 33..=STAR {
        for directions in ALL_DIRECTIONS {
            let all = ends_of(random, count, directions, paired);
            let (a, b) = (random.below(4) as u32, random.below(4) as u32);
            calls.push(PlanCall::star(all, a, b));
        }
        calls.push(PlanCall::bundle(ends(random, count)));
        calls.push(PlanCall::bundle(ends(random, count)));
    }
}

fn on_some_cells(random: &mut Random, bytes: Vec<u8>) -> PlanCall {
    let cells = match random.below(20) {
        0 => random.cells_above_3(),
        _ => random.cells(),
    };
    PlanCall::on_cells(PlanOp::Record, cells, bytes)
}

/// Each number of ends; both kinds; one record cut at every byte; heads of both versions and others; damaged ones.
fn records(random: &mut Random, calls: &mut Vec<PlanCall>) {
    let mut records = Vec::new();
    for count in 0..=NODE {
        for _ in 0..2 {
            let ends = ends(random, count);
            records.push(node_record_of(random, Version::Two, &ends));
        }
    }
    for _ in 0..20 {
        let edge = edge_record_of(random, Version::Two);
        records.push(with_bytes_after(random, edge));
    }
    let whole = accepted_node_of(random, Version::Two, 2);
    records.extend((0..whole.len()).map(|count| whole[..count].to_vec()));
    for length in [1, 2, 6, 7, 8, 9, 23] {
        for version in [0, 1, 2, 3] {
            for kind in [0, 1, 2, 3] {
                let count = random.pick(&[[0, 0], [0, 1], [1, 0], [1, 1], [2, 88], [2, 89]]);
                let mut bytes = vec![0, length, version, kind, 1, 2, 3, 0, count[0], count[1]];
                bytes.resize(25, 1);
                records.push(bytes);
            }
        }
    }
    let mut damaged = 0;
    while damaged < 100 {
        let bytes = damaged_record_of(random, Version::Two);
        if bytes.len() <= MOST_GIVEN {
            records.push(bytes);
            damaged += 1;
        }
    }
    for bytes in records {
        calls.push(on_some_cells(random, bytes));
    }
}

/// In one call and in two pieces: refused records of either version behind accepted ones; then any.
fn floors(random: &mut Random, calls: &mut Vec<PlanCall>) {
    for refused in [
        &[0, 2, 0, 1][..],
        &[0, 2, 3, 1],
        &[0, 2, 2, 3],
        &[0, 7, 2, 1, 1, 1, 0, 0, 0],
        &[0, 8, 2, 1, 1, 1, 0, 0, 2, 89],
        &[0, 7, 1, 1, 1, 1, 0, 0, 33],
        &[0, 8, 2, 1, 1, 4, 0, 0, 0, 0],
        &[0, 8, 2, 1, 1, 1, 0, 0, 0],
    ] {
        let bytes = [&edge_record_of(random, Version::Two)[..], refused].concat();
        in_both_ways(random, calls, bytes);
    }
    let count = calls.len() + 60;
    while calls.len() < count {
        let damaged = random.below(2) == 0;
        let bytes = any_floor_of(random, Version::either, 6, damaged);
        if bytes.len() > MOST_GIVEN {
            continue;
        }
        in_both_ways(random, calls, bytes);
    }
}

fn in_both_ways(random: &mut Random, calls: &mut Vec<PlanCall>, bytes: Vec<u8>) {
    let first = random.below(bytes.len().min(255) + 1);
    let counts = [first, bytes.len() - first];
    let cells = random.cells();
    calls.push(PlanCall::floor(PlanOp::Floor, cells, bytes.clone()));
    calls.push(PlanCall::pieces(cells, &counts, bytes));
}

/// Into a buffer of so many bytes.
fn converted(random: &mut Random, record: &[u8], room: usize, offset: usize) -> PlanCall {
    let buffer = (0..room).map(|_| random.byte()).collect();
    PlanCall::convert_record(record.to_vec(), buffer, offset as u64)
}

/// Each number of ends that there is room for, there and back; back above 32; isolated edges; a byte of room more and
/// less; a right without a left; damaged ones.
fn conversions(random: &mut Random, calls: &mut Vec<PlanCall>) {
    for version in [Version::One, Version::Two] {
        let mut records: Vec<_> = (0..=18)
            .map(|count| accepted_node_of(random, version, count))
            .collect();
        records.extend((0..4).map(|_| edge_record_of(random, version)));
        for record in records {
            let due = rule_plan::outcome(&converted(random, &record, 600, 0)).word as usize;
            calls.push(converted(random, &record, due, 0));
            calls.push(converted(random, &record, due + 9, 4));
            calls.push(converted(random, &record, due - 1, 0));
            calls.push(converted(random, &record, due, 1));
            calls.push(converted(random, &record, 5, 9));
        }
    }
    for (count, room) in [(32, 80), (33, 80), (34, 0), (39, 5)] {
        let record = accepted_node_of(random, Version::Two, count);
        calls.push(converted(random, &record, room, 0));
    }
    let one_side = [
        end((1, 0), &[1, 0, 1, 3, 0, 0, 0]),
        end((0, 1), &[1, 0, 0, 1, 0, 0, 0]),
    ];
    for version in [Version::One, Version::Two] {
        let record = node_record_of(random, version, one_side.as_flattened());
        calls.push(converted(random, &record, 50, 0));
    }
    let mut damaged = 0;
    while damaged < 120 {
        let version = Version::either(random);
        let bytes = damaged_record_of(random, version);
        let room = bytes.len() + 4;
        let call = converted(random, &bytes, room, 2);
        if bytes.len() + room <= MOST_GIVEN && rule::refuses(rule_plan::outcome(&call).word) {
            calls.push(call);
            damaged += 1;
        }
    }
}
