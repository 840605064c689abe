//! Plan records: good ones, damaged copies, truncations, every byte set to every value.

use super::Run;
use crate::floor_pieces::accepted_node;
use crate::ours::plans::{PlanCall, PlanOp};
use crate::plan_pieces::{damaged_record, edge_record, good_record, with_bytes_after};

pub fn compare(run: &mut Run) {
    run.begin("record, good, both kinds");
    for _ in 0..run.times(100_000) {
        let bytes = good_record(&mut run.random);
        ask(run, bytes);
    }
    run.begin("record, good, bytes after it");
    for _ in 0..run.times(20_000) {
        let bytes = good_record(&mut run.random);
        let bytes = with_bytes_after(&mut run.random, bytes);
        ask(run, bytes);
    }
    run.begin("record, damaged");
    for _ in 0..run.times(100_000) {
        let mut bytes = damaged_record(&mut run.random);
        if run.random.below(4) == 0 {
            bytes = with_bytes_after(&mut run.random, bytes);
        }
        ask(run, bytes);
    }
    truncated(run);
    every_byte(run);
    heads(run);
    any_bytes(run);
    numbers_above_3(run);
}

pub(super) fn ask(run: &mut Run, bytes: Vec<u8>) {
    let cells = run.random.cells();
    run.ask_plan(PlanCall::on_cells(PlanOp::Record, cells, bytes));
}

/// A record of kind 2, and nodes of 0 to 3 ends.
fn small(run: &mut Run) -> Vec<Vec<u8>> {
    let mut records = vec![edge_record(&mut run.random)];
    records.extend((0..4).map(|count| accepted_node(&mut run.random, count)));
    records
}

fn truncated(run: &mut Run) {
    run.begin("record, cut at every byte");
    for _ in 0..run.times(4) {
        let mut records = small(run);
        records.extend([8, 31, 32].map(|count| accepted_node(&mut run.random, count)));
        for record in records {
            for count in 0..=record.len() {
                ask(run, record[..count].to_vec());
            }
        }
    }
}

/// Without bytes after it and with, so that a longer length finds its bytes.
fn every_byte(run: &mut Run) {
    run.begin("record, every byte of small ones set to every value");
    for record in small(run) {
        for place in 0..record.len() {
            for byte in 0..=255 {
                let mut bytes = record.clone();
                bytes[place] = byte;
                ask(run, bytes.clone());
                bytes.resize(300, run.random.byte());
                ask(run, bytes);
            }
        }
    }
}

/// Every kind, version and short length beside each other, and the longest length there is.
fn heads(run: &mut Run) {
    run.begin("record, every short length with some versions and kinds");
    for length in 0..=80 {
        for version in [0, 1, 2, 255] {
            for kind in [0, 1, 2, 3, 255] {
                for count in [0, 1, 2, 32, 33, 255] {
                    let mut bytes = vec![0, length, version, kind, 1, 2, 3, 0, count];
                    let after = run.random.below(80);
                    bytes.resize(bytes.len() + after, 1);
                    ask(run, bytes);
                }
            }
        }
    }
    for (length, count) in [
        (65_535, 65_537),
        (65_535, 65_536),
        (65_535, 65_600),
        (3832, 3834),
    ] {
        for (version, kind, ends) in [(1, 1, 255), (1, 1, 32), (1, 1, 33), (1, 2, 0), (2, 1, 0)] {
            let mut bytes = u16::to_be_bytes(length).to_vec();
            bytes.extend([version, kind, 1, 1, 0, 0, ends]);
            bytes.resize(count, 1);
            ask(run, bytes);
        }
    }
}

fn any_bytes(run: &mut Run) {
    run.begin("record, random bytes");
    for _ in 0..run.times(20_000) {
        let count = run.random.below(40);
        let mut bytes: Vec<u8> = (0..count).map(|_| run.random.byte()).collect();
        if count > 4 && run.random.below(2) == 0 {
            let kind = run.random.pick(&[1, 2]);
            bytes[..4].copy_from_slice(&[0, count as u8 - 2, 1, kind]);
        }
        ask(run, bytes);
    }
}

/// An accepted record writes them as 3, a refused one leaves them.
fn numbers_above_3(run: &mut Run) {
    run.begin("record, numbers above 3");
    for _ in 0..run.times(20_000) {
        let cells = run.random.cells_above_3();
        let bytes = if run.random.below(2) == 0 {
            good_record(&mut run.random)
        } else {
            damaged_record(&mut run.random)
        };
        run.ask_plan(PlanCall::on_cells(PlanOp::Record, cells, bytes));
    }
}
