//! The sample's lines of request R-3: short reports read and written, and both forms converted.

use crate::ours::plans::{PlanCall, PlanOp};
use crate::plan_pieces::with_bytes_after;
use crate::random::Random;
use crate::rule_report::{LONG_BYTES, SHORT_BYTES, long, short};

/// Of its own, so that the lines above don't hang on these.
const SEED: u64 = 3;

/// Offsets that no small buffer has, as a number of 64 bits and cut to 32 or fewer.
const FAR: [u64; 7] = [
    1 << 31,
    1 << 32,
    (1 << 32) + 1,
    1 << 63,
    u64::MAX - 6,
    u64::MAX - 5,
    u64::MAX,
];

pub fn calls() -> Vec<PlanCall> {
    let random = &mut Random::new(SEED);
    let mut calls = read(random);
    calls.extend(written(random));
    calls.extend(converted(random));
    calls
}

/// Each cell alone in each dimension, so that its bits show.
fn one_cell_each() -> Vec<[u8; 9]> {
    let mut matrices = Vec::new();
    for place in 0..9 {
        for dimension in 1..=3 {
            let mut cells = [0; 9];
            cells[place] = dimension;
            matrices.push(cells);
        }
    }
    matrices
}

/// Mostly 0 to 3, now and then above.
fn some_cells(random: &mut Random) -> [u8; 9] {
    match random.below(4) {
        0 => random.cells_above_3(),
        _ => random.cells(),
    }
}

/// A report of this length and version, its body random bytes of which the first may be a short report's.
fn of_length(random: &mut Random, length: u16, version: u8) -> Vec<u8> {
    let mut bytes = length.to_be_bytes().to_vec();
    bytes.extend([version, random.below(4) as u8]);
    while bytes.len() < 2 + usize::from(length) {
        bytes.push(random.byte());
    }
    bytes.truncate(2 + usize::from(length));
    bytes
}

/// Good short ones, some with bytes after them; one cut at every byte; each byte with a fault; each top bit; lengths beside
/// versions, whole and one byte short.
fn read(random: &mut Random) -> Vec<PlanCall> {
    let mut matrices = one_cell_each();
    matrices.extend([[0; 9], [3; 9]]);
    matrices.extend((0..12).map(|_| random.cells()));
    let mut reports = Vec::new();
    for (number, cells) in matrices.iter().enumerate() {
        let bytes = short(cells).to_vec();
        reports.push(match number % 3 {
            0 => with_bytes_after(random, bytes),
            _ => bytes,
        });
    }
    let whole = short(&random.cells());
    reports.extend((0..SHORT_BYTES).map(|count| whole[..count].to_vec()));
    for place in 0..SHORT_BYTES {
        for fault in [0, 1, 2, 3, 10, b'F', 255] {
            let mut bytes = short(&random.cells()).to_vec();
            bytes[place] = fault;
            // So that a length of ten isn't refused for its bytes.
            bytes.resize(random.pick(&[SHORT_BYTES, LONG_BYTES]), b'F');
            reports.push(bytes);
        }
    }
    reports.extend(with_a_top_bit(random));
    for length in [0, 1, 2, 3, 4, 5, 9, 10, 11, 260, 266] {
        for version in [0, 1, 2, 3] {
            reports.push(of_length(random, length, version));
        }
        let mut bytes = of_length(random, length, 2);
        bytes.pop();
        reports.push(bytes);
    }
    let call = |bytes| PlanCall::on_cells(PlanOp::ReadReport, random.nine_bytes(), bytes);
    reports.into_iter().map(call).collect()
}

/// Each of the top six bits alone, and all of them.
fn with_a_top_bit(random: &mut Random) -> Vec<Vec<u8>> {
    let mut reports = Vec::new();
    for top in [1, 2, 4, 8, 16, 32, 63] {
        let mut bytes = short(&random.cells()).to_vec();
        bytes[3] |= top << 2;
        reports.push(bytes);
    }
    reports
}

/// Every offset in and around small buffers, and some near large numbers; each cell alone.
fn written(random: &mut Random) -> Vec<PlanCall> {
    let mut calls = Vec::new();
    for count in [0, 1, 5, 6, 7, 12, 20] {
        for offset in (0..=count as u64 + 2).chain(FAR) {
            let cells = some_cells(random);
            let buffer = some_buffer(random, count);
            calls.push(PlanCall::write_short_report(cells, buffer, offset));
        }
    }
    for cells in one_cell_each() {
        let buffer = some_buffer(random, 7);
        calls.push(PlanCall::write_short_report(cells, buffer, 1));
    }
    calls
}

fn some_buffer(random: &mut Random, count: usize) -> Vec<u8> {
    (0..count).map(|_| random.byte()).collect()
}

/// Both forms of some matrices; into buffers with and without room, some with bytes after them; cut at every byte; with
/// faults, also where there is no room, so that the order shows.
fn converted(random: &mut Random) -> Vec<PlanCall> {
    let forms: [(fn(&[u8; 9]) -> Vec<u8>, usize); 2] = [
        (|cells| long(cells).to_vec(), SHORT_BYTES),
        (|cells| short(cells).to_vec(), LONG_BYTES),
    ];
    let mut calls = Vec::new();
    let mut damaged = with_a_top_bit(random);
    for (form, due) in forms {
        let mut matrices = vec![[0; 9], [3; 9], [0, 1, 2, 3, 0, 1, 2, 3, 1]];
        matrices.extend((0..17).map(|_| random.cells()));
        for cells in matrices {
            let offset = random.below(4);
            let count = offset + due + random.below(3);
            let buffer = some_buffer(random, count);
            calls.push(PlanCall::convert_report(
                form(&cells),
                buffer,
                offset as u64,
            ));
        }
        for count in [0, due - 1, due, due + 1, 20] {
            let edge = (count + 1).saturating_sub(due) as u64;
            let near = [edge.saturating_sub(1), edge, edge + 1, count as u64 + 1];
            for offset in near.into_iter().chain(FAR.into_iter().step_by(3)) {
                let mut report = form(&random.cells());
                if random.below(3) == 0 {
                    report = with_bytes_after(random, report);
                }
                let buffer = some_buffer(random, count);
                calls.push(PlanCall::convert_report(report, buffer, offset));
            }
        }
        let whole = form(&random.cells());
        damaged.extend((0..whole.len()).map(|count| whole[..count].to_vec()));
    }
    for place in 3..LONG_BYTES {
        let mut bytes = long(&random.cells()).to_vec();
        bytes[place] = random.pick(b"fTt3*X");
        damaged.push(bytes);
    }
    for length in [3, 4, 5, 9, 10, 11] {
        for version in [0, 1, 2, 3] {
            damaged.push(of_length(random, length, version));
        }
    }
    for report in damaged {
        let count = random.pick(&[0, 5, 11, 13, 14, 20]);
        let buffer = some_buffer(random, count);
        let offset = random.below(3) as u64;
        calls.push(PlanCall::convert_report(report, buffer, offset));
    }
    calls
}
