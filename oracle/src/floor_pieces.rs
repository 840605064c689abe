//! Floors: runs of records, good and damaged, and the ways to cut them into pieces.

use crate::plan_pieces::{
    Version, damaged_record_of, ends, good_record_of, node_record_of, record,
};
use crate::random::Random;
use crate::rule_plan;

/// Above so many pieces a cut is made coarser: what is kept of each would be longer than a call may be.
const MOST_PIECES: usize = 4000;

/// How the version of a record is drawn: `Version::either`, or always the first one, which draws nothing.
pub type Versions = fn(&mut Random) -> Version;

pub fn first(_: &mut Random) -> Version {
    Version::One
}

/// A record of either kind that is accepted.
pub fn accepted(random: &mut Random) -> Vec<u8> {
    accepted_of(random, first)
}

pub fn accepted_of(random: &mut Random, versions: Versions) -> Vec<u8> {
    loop {
        let version = versions(random);
        let bytes = good_record_of(random, version);
        if is_accepted(&bytes) {
            return bytes;
        }
    }
}

/// A node record of so many ends that is accepted.
pub fn accepted_node(random: &mut Random, count: usize) -> Vec<u8> {
    accepted_node_of(random, Version::One, count)
}

pub fn accepted_node_of(random: &mut Random, version: Version, count: usize) -> Vec<u8> {
    loop {
        let ends = ends(random, count);
        let bytes = node_record_of(random, version, &ends);
        if is_accepted(&bytes) {
            return bytes;
        }
    }
}

/// Whether it is doesn't hang on the cells.
fn is_accepted(bytes: &[u8]) -> bool {
    rule_plan::record(&[0; 9], bytes).is_ok()
}

/// So many accepted records.
pub fn floor(random: &mut Random, count: usize) -> Vec<u8> {
    floor_of(random, first, count)
}

pub fn floor_of(random: &mut Random, versions: Versions, count: usize) -> Vec<u8> {
    (0..count)
        .flat_map(|_| accepted_of(random, versions))
        .collect()
}

/// Records that raise few cells, so that the matrix at the end still tells which were poured.
pub fn quiet_floor(random: &mut Random, count: usize) -> Vec<u8> {
    let mut position = |_| [1 + random.below(3) as u8, 1 + random.below(3) as u8];
    let few: [[u8; 2]; 3] = std::array::from_fn(&mut position);
    let kinds = 1 + random.below(3);
    let mut quiet = |_| {
        let [a, b] = few[random.below(kinds)];
        if random.below(2) == 0 {
            return record(2, &[0, a, 0, 0, b, 0, 0]);
        }
        record(1, &[a, b, 0, 0, 0])
    };
    (0..count).flat_map(&mut quiet).collect()
}

/// Up to `most` good records, and if it is to be damaged a damaged one and a few more behind them.
pub fn any_floor(random: &mut Random, most: usize, damaged: bool) -> Vec<u8> {
    any_floor_of(random, first, most, damaged)
}

pub fn any_floor_of(
    random: &mut Random,
    versions: Versions,
    most: usize,
    damaged: bool,
) -> Vec<u8> {
    let count = random.below(most + 1);
    let mut bytes = floor_of(random, versions, count);
    if damaged {
        let version = versions(random);
        let mut bad = damaged_record_of(random, version);
        if random.below(8) == 0 {
            let ends = ends(random, 4);
            bad = node_record_of(random, version, &ends);
        }
        bytes.extend(bad);
        let after = random.below(4);
        bytes.extend(floor_of(random, versions, after));
    }
    bytes
}

/// How a floor is cut into pieces.
#[derive(Clone, Copy)]
pub enum Cut {
    /// Pieces of so many bytes, and what is left.
    Each(usize),
    /// Pieces of one to so many bytes.
    UpTo(usize),
}

/// The counts of the pieces of so many bytes.
pub fn cut(random: &mut Random, total: usize, cut: Cut) -> Vec<usize> {
    let mut counts = Vec::new();
    let mut left = total;
    while left > 0 {
        let count = match cut {
            Cut::Each(count) => count,
            Cut::UpTo(most) => 1 + random.below(most),
        };
        counts.push(count.min(left));
        left -= count.min(left);
    }
    counts
}

/// The counts of the pieces that end at these places, in rising order, and of what is left.
pub fn cut_at(total: usize, places: &[usize]) -> Vec<usize> {
    let mut counts = Vec::new();
    let mut start = 0;
    for end in places.iter().chain([&total]) {
        let end = (*end).min(total);
        counts.push(end - start);
        start = end;
    }
    counts
}

/// Empty pieces among the others, at the start and the end too.
pub fn with_empty_ones(random: &mut Random, counts: Vec<usize>) -> Vec<usize> {
    let mut all = vec![0; random.below(3)];
    for count in counts {
        all.push(count);
        let several = random.pick(&[0, 0, 0, 1, 2]);
        all.resize(all.len() + several, 0);
    }
    all
}

/// A cut of any of these kinds; the number of pieces is bounded.
pub fn any_cut(random: &mut Random, total: usize) -> Vec<usize> {
    let size = random.pick(&[
        1, 2, 3, 7, 11, 64, 489, 490, 4096, 9009, 9010, 9011, 9012, 65_536,
    ]);
    let size = size.max(total / MOST_PIECES + 1);
    let way = random.pick(&[Cut::Each(size), Cut::UpTo(size), Cut::UpTo(2 * size)]);
    let counts = cut(random, total, way);
    if random.below(3) == 0 {
        return with_empty_ones(random, counts);
    }
    counts
}
