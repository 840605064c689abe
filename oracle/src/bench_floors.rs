//! The lines of floors: many records in one call, beside a call a record, and beside the crate's side.
//!
//! The crate's side reads the same bytes with the same checks into the crate's own types, record by record, as for one
//! record (bench_plans.rs); it keeps one matrix over the floor.

use crate::asked;
use crate::asked_star;
use crate::bench::Best;
use crate::bench_plans::node;
use crate::floor_pieces::floor;
use crate::plan_pieces::Directions;
use crate::random::Random;
use crate::relate::geomgraph::intersection_matrix::IntersectionMatrix;
use crate::rule_floor;

#[cfg(linked)]
use crate::ours::linked;

/// Nothing of the library can be called on this processor, and nothing of this is.
#[cfg(not(linked))]
mod linked {
    pub const REFUSED: u32 = 1 << 31;

    pub fn record(_: &mut [u8; 9], _: &[u8]) -> u32 {
        unreachable!()
    }

    pub fn floor(_: &mut [u8; 9], _: &[u8], _: &mut [u64; 2]) -> u32 {
        unreachable!()
    }
}

const START: [u8; 9] = [0, 0, 0, 0, 0, 0, 0, 0, 3];
const SIZES: [usize; 3] = [10, 100, 1000];
/// On all floors of one line together, so that no branch can be learnt by heart.
const RECORDS: usize = 20_000;
const ROUNDS: usize = 40;

/// The word, the bytes used, the records accepted, the matrix.
type Answer = (u32, [u64; 2], [u8; 9]);

fn in_one_call(bytes: &Vec<u8>) -> Answer {
    let (mut cells, mut answer) = (START, [0; 2]);
    let word = linked::floor(&mut cells, bytes, &mut answer);
    (word, answer, cells)
}

fn one_by_one(bytes: &Vec<u8>) -> Answer {
    let (mut cells, mut at, mut records) = (START, 0, 0);
    while at < bytes.len() {
        let word = linked::record(&mut cells, &bytes[at..]);
        if word >= linked::REFUSED {
            return (word, [at as u64, records], cells);
        }
        at += word as usize;
        records += 1;
    }
    (0, [at as u64, records], cells)
}

fn by_the_crate(bytes: &Vec<u8>) -> IntersectionMatrix {
    let mut matrix = asked::matrix(&START);
    let mut at = 0;
    while let Ok(used) = asked_star::record(&mut matrix, &bytes[at..]) {
        at += used as usize;
    }
    matrix
}

fn right(bytes: &[u8]) -> Answer {
    let due = rule_floor::floor(START, bytes);
    (due.word, [due.used as u64, due.records], due.cells)
}

/// One line: nanoseconds a record. The three take turns, so that a busy machine slows all.
fn measure(name: &str, size: usize, floors: &[Vec<u8>]) {
    let all = floors
        .iter()
        .all(|bytes| in_one_call(bytes) == right(bytes) && one_by_one(bytes) == right(bytes));
    assert!(all, "{name}: the library's answers aren't request R-1's");
    let [mut crates, mut ones, mut whole] = [(); 3].map(|()| Best::none());
    for _ in 0..ROUNDS {
        crates.round(by_the_crate, floors);
        ones.round(one_by_one, floors);
        whole.round(in_one_call, floors);
    }
    let [crates, ones, whole] =
        [crates, ones, whole].map(|best| best.each(floors.len()) / size as f64);
    println!(
        "| {name} | {crates:.1} | {ones:.1} | {whole:.1} | {:.2} | {:.2} |",
        ones / whole,
        crates / whole
    );
}

/// A table of its own.
pub(crate) fn measure_all(random: &mut Random) {
    println!();
    println!("Floors, best of {ROUNDS} rounds over {RECORDS} records, nanoseconds a record.");
    println!();
    println!(
        "| floor | crate | ours, a call a record | ours, one call | a call a record / one call | crate / one call |"
    );
    println!("|---|---:|---:|---:|---:|---:|");
    for size in SIZES {
        let count = RECORDS / size;
        let square = |random: &mut Random| node(random, 4, Directions::Axes).record;
        let walls: Vec<Vec<u8>> = (0..count)
            .map(|_| (0..size).flat_map(|_| square(random)).collect())
            .collect();
        measure(
            &format!("{size} records of 4 ends, square walls"),
            size,
            &walls,
        );
        let mixed: Vec<Vec<u8>> = (0..count).map(|_| floor(random, size)).collect();
        measure(&format!("{size} mixed records"), size, &mixed);
    }
}
