//! Stored reports: read, written and converted.

use super::Run;
use crate::ours::plans::{PlanCall, PlanOp};
use crate::pieces::{MATRICES, matrix_by_number};
use crate::plan_pieces::with_bytes_after;
use crate::random::Random;
use crate::rule_report::{long, short};

pub fn compare(run: &mut Run) {
    good(run);
    damaged(run);
    written(run);
}

/// What the nine cells held before reading is of no account, and must stay if the report is refused.
fn ask_reading(run: &mut Run, bytes: Vec<u8>) {
    let cells = run.random.nine_bytes();
    run.ask_plan(PlanCall::on_cells(PlanOp::ReadReport, cells, bytes));
}

fn good(run: &mut Run) {
    run.begin("report read, every matrix, bytes after it or none");
    for number in 0..MATRICES {
        let mut bytes = long(&matrix_by_number(number)).to_vec();
        if number % 4 == 0 {
            bytes = with_bytes_after(&mut run.random, bytes);
        }
        ask_reading(run, bytes);
    }
}

fn damaged(run: &mut Run) {
    run.begin("report read, every byte set to every value, cut at every byte");
    for _ in 0..run.times(4) {
        let good = long(&run.random.cells()).to_vec();
        for place in 0..good.len() {
            ask_reading(run, good[..place].to_vec());
            for byte in 0..=255 {
                let mut bytes = good.clone();
                bytes[place] = byte;
                ask_reading(run, bytes.clone());
                bytes.resize(300, b'F');
                ask_reading(run, bytes);
            }
        }
    }
    run.begin("report read, random faults");
    for _ in 0..run.times(20_000) {
        let mut bytes = long(&run.random.cells()).to_vec();
        for _ in 0..1 + run.random.below(3) {
            let place = run.random.below(12);
            bytes[place] = run
                .random
                .pick(&[0, 1, 9, 10, 11, b'F', b'f', b'T', b'3', b'*', 200]);
        }
        if run.random.below(3) == 0 {
            bytes.truncate(run.random.below(13));
        }
        ask_reading(run, bytes);
    }
}

fn written(run: &mut Run) {
    run.begin("report written, every offset in and around small buffers");
    for count in 0..=40 {
        for offset in 0..=count as u64 + 14 {
            for _ in 0..run.times(4) {
                ask_writing(run, count, offset);
            }
        }
    }
    run.begin("report written, offsets near the largest number and its halves");
    for count in [0, 1, 11, 12, 13, 24, 100] {
        for offset in large_offsets() {
            ask_writing(run, count, offset);
        }
    }
    run.begin("report written, every matrix");
    for number in 0..MATRICES {
        let offset = run.random.below(4);
        let buffer = vec![0xEE; 12 + offset + run.random.below(3)];
        let cells = matrix_by_number(number);
        run.ask_plan(PlanCall::write_report(cells, buffer, offset as u64));
    }
}

/// Near the largest number and its halves.
pub(super) fn large_offsets() -> impl Iterator<Item = u64> {
    let near = [1 << 31, 1 << 32, 1 << 33, 1 << 63, 0u64];
    near.into_iter().flat_map(|near| {
        (0..=64).flat_map(move |away| [near.wrapping_sub(away), near.wrapping_add(away)])
    })
}

/// Cells to be written, every second time with numbers above 3.
fn some_cells(random: &mut Random) -> [u8; 9] {
    if random.below(2) == 0 {
        random.cells()
    } else {
        random.cells_above_3()
    }
}

pub(super) fn some_buffer(random: &mut Random, count: usize) -> Vec<u8> {
    (0..count).map(|_| random.byte()).collect()
}

fn ask_writing(run: &mut Run, count: usize, offset: u64) {
    let cells = some_cells(&mut run.random);
    let buffer = some_buffer(&mut run.random, count);
    run.ask_plan(PlanCall::write_report(cells, buffer, offset));
}

/// What request R-3 adds: the short form beside the long one, and converting.
pub fn compare_both_forms(run: &mut Run) {
    every_matrix(run);
    every_byte(run);
    lengths_and_versions(run);
    top_bits(run);
    random_faults(run);
    short_written(run);
    converted(run);
}

const FORMS: [fn(&[u8; 9]) -> Vec<u8>; 2] =
    [|cells| long(cells).to_vec(), |cells| short(cells).to_vec()];

fn ask_writing_short(run: &mut Run, count: usize, offset: u64) {
    let cells = some_cells(&mut run.random);
    let buffer = some_buffer(&mut run.random, count);
    run.ask_plan(PlanCall::write_short_report(cells, buffer, offset));
}

fn ask_converting(run: &mut Run, report: Vec<u8>, count: usize, offset: u64) {
    let buffer = some_buffer(&mut run.random, count);
    run.ask_plan(PlanCall::convert_report(report, buffer, offset));
}

/// The same bytes read and converted. Mostly there is room for either form; where there isn't, 12 must come last.
fn ask_both(run: &mut Run, bytes: &[u8]) {
    ask_reading(run, bytes.to_vec());
    let offset = run.random.below(3);
    let room = run.random.pick(&[0, 5, 6, 11, 12, 12, 12, 13, 15]);
    ask_converting(run, bytes.to_vec(), offset + room, offset as u64);
}

fn every_matrix(run: &mut Run) {
    run.begin("short report, every matrix: written, read, and both forms converted");
    for number in 0..MATRICES {
        let cells = matrix_by_number(number);
        let (offset, more) = (run.random.below(4), run.random.below(3));
        let buffer = some_buffer(&mut run.random, 6 + offset + more);
        run.ask_plan(PlanCall::write_short_report(cells, buffer, offset as u64));
        ask_reading(run, short(&cells).to_vec());
        for form in FORMS {
            let mut report = form(&cells);
            if number % 4 == 0 {
                report = with_bytes_after(&mut run.random, report);
            }
            ask_converting(run, report, 12 + offset + more, offset as u64);
        }
    }
}

fn every_byte(run: &mut Run) {
    run.begin("both forms read and converted, every byte set to every value, cut at every byte");
    for _ in 0..run.times(4) {
        for form in FORMS {
            let good = form(&run.random.cells());
            for place in 0..good.len() {
                ask_both(run, &good[..place]);
                for byte in 0..=255 {
                    let mut bytes = good.clone();
                    bytes[place] = byte;
                    ask_both(run, &bytes);
                    bytes.resize(300, b'F');
                    ask_both(run, &bytes);
                }
            }
        }
    }
}

/// A report of any length and version: good letters, or zeros.
fn of_length(random: &mut Random, length: usize, version: u8) -> Vec<u8> {
    let filling = random.pick(&[0, b'F', b'1']);
    let mut bytes = (length as u16).to_be_bytes().to_vec();
    bytes.push(version);
    bytes.resize(length.max(1) + 2, filling);
    bytes
}

fn lengths_and_versions(run: &mut Run) {
    run.begin("report read and converted, every length field, most of them with too few bytes");
    for length in 0..=usize::from(u16::MAX) {
        let version = run.random.pick(&[0, 1, 2, 3]);
        let mut bytes = of_length(&mut run.random, length, version);
        bytes.truncate(300);
        ask_both(run, &bytes);
    }
    run.begin(
        "report read and converted, every version beside each length up to 300, whole or not",
    );
    for length in 0..=300 {
        for version in 0..=255 {
            let bytes = of_length(&mut run.random, length, version);
            ask_both(run, &bytes);
            if version < 4 {
                ask_both(run, &bytes[..length + 1]);
            }
        }
    }
    run.begin("report read and converted, lengths near 4 and 10 but for the high byte, whole");
    for high in 1..=255 {
        for low in [3, 4, 5, 9, 10, 11] {
            let version = run.random.pick(&[1, 2]);
            let bytes = of_length(&mut run.random, 256 * high + low, version);
            ask_both(run, &bytes);
        }
        // They are long: not too many at once.
        run.answer_waiting();
    }
}

fn top_bits(run: &mut Run) {
    run.begin("short report read and converted, all values of the top six bits");
    for top in 0..64 {
        for _ in 0..run.times(64) {
            let mut bytes = short(&run.random.cells());
            bytes[3] |= top << 2;
            ask_both(run, &bytes);
        }
    }
}

fn random_faults(run: &mut Run) {
    run.begin("both forms read and converted, random faults");
    for _ in 0..run.times(40_000) {
        let mut bytes = run.random.pick(&FORMS)(&run.random.cells());
        for _ in 0..1 + run.random.below(3) {
            let place = run.random.below(bytes.len());
            bytes[place] = run
                .random
                .pick(&[0, 1, 2, 3, 4, 9, 10, 11, b'F', b'f', b'T', b'3', 128, 200]);
        }
        match run.random.below(4) {
            0 => bytes.truncate(run.random.below(13)),
            1 => bytes.resize(12, b'F'),
            _ => {}
        }
        ask_both(run, &bytes);
    }
}

fn short_written(run: &mut Run) {
    run.begin("short report written, every offset in and around small buffers");
    for count in 0..=40 {
        for offset in 0..=count as u64 + 14 {
            for _ in 0..run.times(4) {
                ask_writing_short(run, count, offset);
            }
        }
    }
    run.begin("short report written, offsets near the largest number and its halves");
    for count in [0, 1, 5, 6, 7, 12, 100] {
        for offset in large_offsets() {
            ask_writing_short(run, count, offset);
        }
    }
}

fn converted(run: &mut Run) {
    run.begin("both forms converted, every offset in and around small buffers");
    for form in FORMS {
        for count in 0..=40 {
            for offset in 0..=count as u64 + 14 {
                for _ in 0..run.times(4) {
                    let report = form(&run.random.cells());
                    ask_converting(run, report, count, offset);
                }
            }
        }
    }
    run.begin("both forms converted, offsets near the largest number and its halves");
    for form in FORMS {
        for count in [0, 1, 5, 6, 7, 11, 12, 13, 100] {
            for offset in large_offsets() {
                let report = form(&run.random.cells());
                ask_converting(run, report, count, offset);
            }
        }
    }
}
