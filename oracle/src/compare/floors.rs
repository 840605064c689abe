//! Floors: runs of 0 to 2,000 records, good, damaged and cut, each in one call, a call a record, and in pieces. All
//! three must answer what request R-1's rule does over the oracle's own reader of records.

use super::Run;
use crate::floor_pieces::{
    Cut, accepted, accepted_node, any_cut, any_floor, cut, cut_at, floor, quiet_floor,
    with_empty_ones,
};
use crate::ours::plans::{PlanCall, PlanOp};
use crate::plan_pieces::edge_record;

/// The counts of records of long floors.
const LONG: [usize; 11] = [100, 127, 128, 200, 255, 256, 257, 500, 1000, 1999, 2000];
/// Of floors that are damaged at many bytes, and at how many.
const DAMAGED: [usize; 4] = [100, 400, 1000, 2000];
const PLACES: usize = 160;
/// Calls with so many bytes don't wait for others.
const MANY_BYTES: usize = 20_000;
/// The longest accepted record of version 1, and of any.
const LONGEST_OF_VERSION_1: usize = 489;
const LONGEST: usize = 9010;

pub fn compare(run: &mut Run) {
    good(run);
    short_every_byte(run);
    short_cut(run);
    long_damaged(run);
    several(run);
    starts(run);
    cuts(run);
    lengths(run);
    any_bytes(run);
}

/// The same floor in all three ways, cut into pieces in any way.
fn ask(run: &mut Run, cells: [u8; 9], bytes: Vec<u8>) {
    let counts = any_cut(&mut run.random, bytes.len());
    for op in [PlanOp::Floor, PlanOp::OneByOne] {
        run.ask_plan(PlanCall::floor(op, cells, bytes.clone()));
    }
    ask_pieces(run, cells, &counts, bytes);
}

fn ask_pieces(run: &mut Run, cells: [u8; 9], counts: &[usize], bytes: Vec<u8>) {
    let many = bytes.len() > MANY_BYTES;
    run.ask_plan(PlanCall::pieces(cells, counts, bytes));
    if many {
        run.answer_waiting();
    }
}

/// On cells of 0 to 3, now and then above.
fn ask_on_some(run: &mut Run, bytes: Vec<u8>) {
    let cells = match run.random.below(8) {
        0 => run.random.cells_above_3(),
        1 => run.random.nine_bytes(),
        _ => run.random.cells(),
    };
    ask(run, cells, bytes);
}

fn good(run: &mut Run) {
    run.begin("floor, good, 0 to 64 records");
    for count in 0..=64 {
        for _ in 0..run.times(6) {
            let bytes = floor(&mut run.random, count);
            ask_on_some(run, bytes);
            let bytes = quiet_floor(&mut run.random, count);
            ask_on_some(run, bytes);
        }
    }
    run.begin("floor, good, 100 to 2,000 records");
    for count in LONG {
        for _ in 0..run.times(2) {
            let bytes = floor(&mut run.random, count);
            ask_on_some(run, bytes);
            let bytes = quiet_floor(&mut run.random, count);
            ask_on_some(run, bytes);
        }
    }
}

/// Floors of few bytes: both kinds, and nodes of 0 to 3 ends between them.
fn short(run: &mut Run) -> Vec<Vec<u8>> {
    let mut floors = Vec::new();
    for count in 0..4 {
        let parts = [
            edge_record(&mut run.random),
            accepted_node(&mut run.random, count),
            edge_record(&mut run.random),
        ];
        floors.push(parts.concat());
    }
    floors.push(quiet_floor(&mut run.random, 8));
    floors
}

/// The first to every value, the others to those that the checks look for.
fn short_every_byte(run: &mut Run) {
    run.begin("floor, short, every byte set to several values");
    let some = [0, 1, 2, 3, 4, 7, 9, 22, 32, 33, 37, 127, 128, 255];
    let every: Vec<u8> = (0..=255).collect();
    for _ in 0..run.times(2) {
        for (number, whole) in short(run).into_iter().enumerate() {
            let values: &[u8] = if number == 0 { &every } else { &some };
            for place in 0..whole.len() {
                let near = [whole[place].wrapping_add(1), whole[place].wrapping_sub(1)];
                for value in values.iter().chain(&near) {
                    let mut bytes = whole.clone();
                    bytes[place] = *value;
                    ask_on_some(run, bytes);
                }
            }
        }
    }
}

fn short_cut(run: &mut Run) {
    run.begin("floor, short, ended at every byte");
    for _ in 0..run.times(4) {
        let mut floors = short(run);
        floors.push(accepted_node(&mut run.random, 32));
        floors[5].extend(edge_record(&mut run.random));
        for whole in floors {
            for count in 0..=whole.len() {
                ask_on_some(run, whole[..count].to_vec());
            }
        }
    }
}

/// Many places, about as far from each other; one byte is set to any value, and the floor ends there.
fn long_damaged(run: &mut Run) {
    run.begin("floor, 100 to 2,000 records, a byte damaged, or ended there");
    for count in DAMAGED {
        for whole in [
            floor(&mut run.random, count),
            quiet_floor(&mut run.random, count),
        ] {
            for number in 0..run.times(PLACES) {
                let stretch = whole.len() / run.times(PLACES);
                let place = number * stretch + run.random.below(stretch);
                let mut bytes = whole.clone();
                bytes[place] = match run.random.below(3) {
                    0 => bytes[place] ^ 1 << run.random.below(8),
                    1 => run.random.pick(&[0, 1, 2, 3, 4, 33, 255]),
                    _ => run.random.byte(),
                };
                ask_on_some(run, bytes);
                ask_on_some(run, whole[..place].to_vec());
            }
        }
    }
}

/// A damaged record of any kind, good ones before and after it.
fn several(run: &mut Run) {
    run.begin("floor, a damaged record among others");
    for _ in 0..run.times(20_000) {
        let bytes = any_floor(&mut run.random, 6, true);
        ask_on_some(run, bytes);
    }
}

/// Every number in every cell, where nothing is accepted and where something is.
fn starts(run: &mut Run) {
    run.begin("floor, every number in every cell before it");
    for number in 0..=255 {
        for place in 0..9 {
            let mut cells = run.random.nine_bytes();
            cells[place] = number;
            let good = accepted(&mut run.random);
            let part = run.random.below(good.len());
            let refused = vec![0, 2, 1, 9];
            let floors = [
                Vec::new(),
                good[..part].to_vec(),
                [&refused[..], &good].concat(),
                [&good[..], &refused].concat(),
                good,
            ];
            for bytes in floors {
                ask(run, cells, bytes);
            }
        }
    }
}

/// Floors with the longest records of version 1: in two pieces at every byte, in pieces of each small size and of each
/// about the longest record's, cut about each record's start and its end. many_ends.rs has those of version 2.
fn cuts(run: &mut Run) {
    run.begin("floor in pieces, cut at every byte, at every size, about every record");
    for _ in 0..run.times(3) {
        let longest = [(); 2].map(|()| accepted_node(&mut run.random, 32));
        assert!(
            longest
                .iter()
                .all(|record| record.len() == LONGEST_OF_VERSION_1)
        );
        let edge = edge_record(&mut run.random);
        let node = accepted_node(&mut run.random, 0);
        let whole = [&edge[..], &longest[0], &node, &longest[1], &edge].concat();
        let cells = run.random.cells();
        for place in 0..=whole.len() {
            ask_pieces(run, cells, &cut_at(whole.len(), &[place]), whole.clone());
        }
        for size in (1..=20).chain(480..=500) {
            let counts = cut(&mut run.random, whole.len(), Cut::Each(size));
            ask_pieces(run, cells, &counts, whole.clone());
            let counts = with_empty_ones(&mut run.random, counts);
            ask_pieces(run, cells, &counts, whole.clone());
        }
        about(run, cells, &whole, edge.len());
        let start = edge.len() + LONGEST_OF_VERSION_1 + node.len();
        about(run, cells, &whole, start);
    }
}

/// Three cuts behind a record's start: in its length field or just after it, and about its end.
fn about(run: &mut Run, cells: [u8; 9], whole: &[u8], start: usize) {
    for early in 0..=4 {
        for late in LONGEST_OF_VERSION_1 - 2..=LONGEST_OF_VERSION_1 + 4 {
            for last in [0, 1, 2, 11] {
                let places = [early, late, late + last].map(|place| start + place);
                ask_pieces(run, cells, &cut_at(whole.len(), &places), whole.to_vec());
            }
        }
    }
}

/// Length fields about the longest accepted records' and far above: whole, a byte short, a byte more, a record after.
fn lengths(run: &mut Run) {
    run.begin("floor, length fields up to 65,535: whole, a byte short, a byte more");
    let long = (480..=500)
        .chain([1000, 4094])
        .chain(9000..=9030)
        .chain([65_533, 65_534, 65_535]);
    let heads = [
        [1, 1, 32, 1],
        [1, 1, 33, 1],
        [1, 1, 0, 1],
        [1, 2, 0, 1],
        [1, 3, 0, 1],
        [2, 1, 2, 88],
        [2, 1, 2, 89],
        [2, 1, 0, 32],
        [2, 1, 255, 255],
        [2, 2, 0, 1],
        [2, 3, 0, 1],
        [3, 1, 0, 1],
    ];
    for length in long {
        for head in heads {
            for before in [0, 1, 3] {
                let start = floor(&mut run.random, before);
                of_length(run, &start, length, head);
            }
        }
    }
    one_byte_at_a_time(run);
}

/// A record with this length field and this version, kind and count of ends in one byte or two, and what may follow it.
fn long_record(length: u16, [version, kind, high, low]: [u8; 4]) -> Vec<u8> {
    let mut bytes = length.to_be_bytes().to_vec();
    bytes.extend([version, kind, 1, 2, 3, 0, high, low]);
    bytes.resize(2 + usize::from(length), 1);
    bytes
}

fn of_length(run: &mut Run, start: &[u8], length: u16, head: [u8; 4]) {
    let longest = if length < 9000 {
        LONGEST_OF_VERSION_1
    } else {
        LONGEST
    };
    let record = long_record(length, head);
    let after = accepted(&mut run.random);
    let whole = [start, &record, &after].concat();
    let end = start.len() + record.len();
    for count in [end - 1, end, end + 1, whole.len()] {
        let bytes = whole[..count].to_vec();
        ask_on_some(run, bytes.clone());
        let cells = run.random.cells();
        let held = start.len() + longest + run.random.below(3);
        let places = [start.len() + 1, held, end.max(held + 1) - 1];
        ask_pieces(run, cells, &cut_at(count, &places), bytes);
    }
}

/// The longest record that a length field can tell of.
fn one_byte_at_a_time(run: &mut Run) {
    for head in [[1, 1, 32, 1], [1, 2, 0, 1], [2, 1, 2, 89], [3, 1, 0, 1]] {
        let mut bytes = edge_record(&mut run.random);
        bytes.extend(long_record(u16::MAX, head));
        let cells = run.random.cells();
        ask_pieces(run, cells, &vec![1; bytes.len()], bytes);
    }
}

fn any_bytes(run: &mut Run) {
    run.begin("floor, random bytes behind good records");
    for _ in 0..run.times(5000) {
        let before = run.random.below(3);
        let mut bytes = floor(&mut run.random, before);
        let count = run.random.below(40);
        bytes.extend((0..count).map(|_| run.random.byte()));
        ask_on_some(run, bytes);
    }
}
