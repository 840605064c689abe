//! Request R-11: records converted into the other version, there and back, and poured the same.

use super::Run;
use super::reports::{large_offsets, some_buffer};
use crate::floor_pieces::accepted_node_of;
use crate::ours::plans::{PlanCall, PlanOp};
use crate::plan_pieces::{
    Version, damaged_record_of, edge_record_of, good_record_of, with_bytes_after,
};
use crate::rule;
use crate::rule_plan;

const BOTH: [Version; 2] = [Version::One, Version::Two];

pub fn compare(run: &mut Run) {
    there_and_back(run);
    good_and_damaged(run);
    offsets(run);
    every_byte(run);
}

/// Converting with so much room that it is never short.
fn wide(record: Vec<u8>) -> PlanCall {
    let room = record.len() + 8;
    PlanCall::convert_record(record, vec![0xEE; room], 3)
}

/// Each count of ends in both versions. What the library has written is poured and converted back: the first bytes must
/// come again, and both must pour the same.
fn there_and_back(run: &mut Run) {
    run.begin("record converted, there and back, and both poured: each count of ends");
    let counts = (0..=64).chain([65, 128, 255, 256, 257, 511, 512, 598, 599, 600]);
    for count in counts {
        for version in BOTH {
            if count <= version.form().most_ends {
                for _ in 0..run.times(2) {
                    let record = accepted_node_of(&mut run.random, version, count);
                    follow(run, record, count <= 32);
                }
            }
        }
    }
    run.begin("record converted, there and back, and both poured: isolated edges");
    for version in BOTH {
        for _ in 0..run.times(500) {
            let record = edge_record_of(&mut run.random, version);
            follow(run, record, true);
        }
    }
}

fn follow(run: &mut Run, record: Vec<u8>, fits: bool) {
    let call = wide(record.clone());
    let reply = &run.answered(&[call])[0];
    assert_eq!(!rule::refuses(reply.word), fits, "converted up to 32 ends");
    if !fits {
        return;
    }
    let other = reply.out[3..3 + reply.word as usize].to_vec();
    let back = &run.answered(&[wide(other.clone())])[0];
    assert_eq!(back.word as usize, record.len(), "the first bytes again");
    assert_eq!(
        back.out[3..3 + record.len()],
        record,
        "the first bytes again"
    );
    let cells = run.random.cells();
    let poured = |bytes| PlanCall::on_cells(PlanOp::Record, cells, bytes);
    let replies = run.answered(&[poured(record), poured(other)]);
    assert_eq!(replies[0].out, replies[1].out, "it pours the same");
}

/// Into any room from any offset, mostly enough of it.
fn ask(run: &mut Run, record: Vec<u8>) {
    let need = record.len() + 1;
    let room = match run.random.below(4) {
        0 => run.random.below(need + 4),
        _ => need + run.random.below(20),
    };
    let offset = match run.random.below(3) {
        0 => run.random.below(12) as u64,
        _ => 0,
    };
    let buffer = some_buffer(&mut run.random, room);
    run.ask_plan(PlanCall::convert_record(record, buffer, offset));
}

fn good_and_damaged(run: &mut Run) {
    run.begin("record converted, good, both versions, bytes after it or none");
    for _ in 0..run.times(10_000) {
        let version = Version::either(&mut run.random);
        let mut record = good_record_of(&mut run.random, version);
        if run.random.below(4) == 0 {
            record = with_bytes_after(&mut run.random, record);
        }
        ask(run, record);
    }
    run.begin("record converted, damaged, both versions");
    for _ in 0..run.times(10_000) {
        let version = Version::either(&mut run.random);
        let record = damaged_record_of(&mut run.random, version);
        ask(run, record);
    }
}

/// 12 is looked for last: behind a record's own numbers and behind 5.
fn offsets(run: &mut Run) {
    run.begin("record converted, every offset in and around small buffers, offsets near the largest number");
    for version in BOTH {
        for count in [0, 1, 32, 33] {
            if count > version.form().most_ends {
                continue;
            }
            let record = accepted_node_of(&mut run.random, version, count);
            let due = rule_plan::outcome(&wide(record.clone())).word;
            let need = if rule::refuses(due) {
                record.len()
            } else {
                due as usize
            };
            for room in [0, 1, need - 1, need, need + 1, need + 9] {
                let near = (0..=12).chain(need as u64 - 1..=need as u64 + 12);
                for offset in near.chain(large_offsets()) {
                    let buffer = some_buffer(&mut run.random, room);
                    run.ask_plan(PlanCall::convert_record(record.clone(), buffer, offset));
                }
            }
        }
    }
}

fn every_byte(run: &mut Run) {
    run.begin("record converted, every byte of small ones set to every value, cut at every byte");
    for version in BOTH {
        let mut records = vec![edge_record_of(&mut run.random, version)];
        for count in [0, 2] {
            records.push(accepted_node_of(&mut run.random, version, count));
        }
        for record in records {
            for place in 0..record.len() {
                ask(run, record[..place].to_vec());
                for byte in 0..=255 {
                    let mut bytes = record.clone();
                    bytes[place] = byte;
                    ask(run, bytes);
                }
            }
        }
    }
}
