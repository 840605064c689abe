//! Pieces that ends, records and reports are made of.

use crate::random::Random;
use crate::rule_plan::{FORMS, Form};
use crate::rule_star::{END_BYTES, LABEL_BYTES, LARGEST_PART};

const LARGEST: i32 = LARGEST_PART as i32;

/// Parts that no direction may have.
const BEYOND: [i32; 6] = [
    LARGEST + 1,
    -LARGEST - 1,
    i32::MAX,
    i32::MIN,
    i32::MIN + 1,
    LARGEST + 1000,
];

/// How the directions of one star are chosen.
#[derive(Clone, Copy)]
pub enum Directions {
    /// The four axes, at any length.
    Axes,
    /// Parts of −5 to 5: many are multiples of each other.
    Small,
    /// Any parts that are admitted.
    Any,
    /// The largest parts, and what lies next to them and to 0.
    Extreme,
    /// Long ones close beside each other: neighbouring fractions, which a rough number of the direction can't tell apart.
    Near,
    /// On an axis or anywhere, one as likely as the other.
    Mixed,
}

pub const ALL_DIRECTIONS: [Directions; 6] = [
    Directions::Axes,
    Directions::Small,
    Directions::Any,
    Directions::Extreme,
    Directions::Near,
    Directions::Mixed,
];

fn any_part(random: &mut Random) -> i32 {
    (random.below(2 * LARGEST_PART as usize + 1) as i64 - LARGEST_PART) as i32
}

fn extreme_part(random: &mut Random) -> i32 {
    let size = random.pick(&[0, 1, 2, LARGEST - 2, LARGEST - 1, LARGEST, LARGEST]);
    size * random.pick(&[-1, 1])
}

fn on_an_axis(random: &mut Random) -> (i32, i32) {
    let length = 1 + random.below(LARGEST_PART as usize) as i32;
    let part = length * random.pick(&[-1, 1]);
    random.pick(&[(part, 0), (0, part)])
}

/// Within a hundred of one long direction.
fn beside_one(random: &mut Random) -> (i32, i32) {
    let x = LARGEST - random.below(100) as i32;
    let y = LARGEST / 2 - random.below(100) as i32;
    (x, y)
}

/// A direction that is admitted.
pub fn direction(random: &mut Random, directions: Directions) -> (i32, i32) {
    let part = match directions {
        Directions::Axes => return on_an_axis(random),
        Directions::Near => return beside_one(random),
        Directions::Mixed if random.below(2) == 0 => return on_an_axis(random),
        Directions::Mixed => any_part,
        Directions::Small => |random: &mut Random| random.below(11) as i32 - 5,
        Directions::Any => any_part,
        Directions::Extreme => extreme_part,
    };
    loop {
        let found = (part(random), part(random));
        if found != (0, 0) {
            return found;
        }
    }
}

/// A direction that is refused: 0,0, or a part beyond.
fn bad_direction(random: &mut Random) -> (i32, i32) {
    let beyond = random.pick(&BEYOND);
    let other = any_part(random);
    random.pick(&[(0, 0), (beyond, other), (other, beyond), (beyond, 0)])
}

/// How the labels of one star are chosen: in tenths, how often a label is an area's, and how often a position is none.
#[derive(Clone, Copy)]
pub struct Labels {
    pub areas: usize,
    pub nones: usize,
    /// Whether an area's sides are both known or both none, in each geometry.
    pub paired: bool,
}

impl Labels {
    fn any(random: &mut Random) -> Self {
        Labels {
            areas: random.pick(&[0, 1, 5, 5, 8, 9, 10]),
            nones: random.pick(&[0, 1, 3, 5, 8]),
            paired: random.below(4) != 0,
        }
    }

    fn code(&self, random: &mut Random) -> u8 {
        let known = 1 + random.below(3) as u8;
        known * u8::from(random.below(10) >= self.nones)
    }

    /// Sides are mostly Inside and Outside; a boundary there vanishes when a bundle joins.
    fn side(&self, random: &mut Random) -> u8 {
        match self.code(random) {
            2 if random.below(4) != 0 => random.pick(&[1, 3]),
            code => code,
        }
    }

    fn sides(&self, random: &mut Random) -> [u8; 2] {
        if !self.paired {
            return [self.side(random), self.side(random)];
        }
        if random.below(10) < self.nones {
            [0, 0]
        } else {
            [random.pick(&[1, 3]), random.pick(&[1, 3])]
        }
    }

    pub fn label(&self, random: &mut Random) -> [u8; LABEL_BYTES] {
        let mut bytes = [0; LABEL_BYTES];
        bytes[0] = u8::from(random.below(10) < self.areas);
        for at in [1, 4] {
            bytes[at] = self.code(random);
            if bytes[0] == 1 {
                bytes[at + 1..at + 3].copy_from_slice(&self.sides(random));
            }
        }
        bytes
    }
}

pub fn end(direction: (i32, i32), label: &[u8; LABEL_BYTES]) -> [u8; END_BYTES] {
    let mut bytes = [0; END_BYTES];
    bytes[..4].copy_from_slice(&direction.0.to_be_bytes());
    bytes[4..8].copy_from_slice(&direction.1.to_be_bytes());
    bytes[8..].copy_from_slice(label);
    bytes
}

/// Ends that are all good. Every third time they share very few directions, so that bundles have many ends.
pub fn ends(random: &mut Random, count: usize) -> Vec<u8> {
    let directions = random.pick(&ALL_DIRECTIONS);
    let labels = Labels::any(random);
    let few: [(i32, i32); 3] = std::array::from_fn(|_| direction(random, directions));
    let shared = random.below(3) == 0;
    let mut ends = Vec::with_capacity(count * END_BYTES);
    for _ in 0..count {
        let direction = if shared {
            random.pick(&few)
        } else {
            direction(random, directions)
        };
        let label = labels.label(random);
        ends.extend(end(direction, &label));
    }
    ends
}

/// So many good ends, their directions and labels chosen so.
pub fn ends_of(
    random: &mut Random,
    count: usize,
    directions: Directions,
    labels: Labels,
) -> Vec<u8> {
    let mut end = |_| {
        let direction = direction(random, directions);
        end(direction, &labels.label(random))
    };
    (0..count).flat_map(&mut end).collect()
}

/// Good ends, turned by ninety degrees against the clock.
pub fn turned(ends: &[u8]) -> Vec<u8> {
    let (ends, _) = ends.as_chunks::<END_BYTES>();
    let part = |end: &[u8], at: usize| {
        let four = end[at..at + 4].try_into().expect("four bytes");
        i32::from_be_bytes(four)
    };
    let turn = |bytes: &[u8; END_BYTES]| {
        let (dx, dy) = (part(bytes, 0), part(bytes, 4));
        let label = bytes[8..].try_into().expect("seven bytes");
        end((-dy, dx), label)
    };
    ends.iter().flat_map(turn).collect()
}

/// Mostly a few ends, and often about as many as there may be; 0 to 34.
pub fn count(random: &mut Random) -> usize {
    match random.below(8) {
        0 => random.below(35),
        1 => random.pick(&[31, 32, 32, 33, 34]),
        2 => 8 + random.below(25),
        _ => random.below(8),
    }
}

/// A label with one fault: its kind, a code, or sides on a line.
pub fn damage_label(random: &mut Random, label: &mut [u8]) {
    match random.below(3) {
        0 => label[0] = random.pick(&[2, 3, 128, 255]),
        1 => label[1 + random.below(6)] = random.pick(&[4, 5, 128, 255]),
        _ => {
            label[0] = 0;
            label[random.pick(&[2, 3, 5, 6])] = 1 + random.below(3) as u8;
        }
    }
}

/// One to three ends with a fault, if there are any ends.
pub fn damage_ends(random: &mut Random, ends: &mut [u8]) {
    let count = ends.len() / END_BYTES;
    for _ in 0..1 + random.below(3) {
        if count == 0 {
            return;
        }
        let at = END_BYTES * random.below(count);
        if random.below(2) == 0 {
            let (dx, dy) = bad_direction(random);
            ends[at..at + 4].copy_from_slice(&dx.to_be_bytes());
            ends[at + 4..at + 8].copy_from_slice(&dy.to_be_bytes());
        } else {
            damage_label(random, &mut ends[at + 8..at + END_BYTES]);
        }
    }
}

/// The version that a record is drawn in.
#[derive(Clone, Copy)]
pub enum Version {
    One,
    Two,
}

impl Version {
    pub fn either(random: &mut Random) -> Self {
        random.pick(&[Version::One, Version::Two])
    }

    pub fn form(self) -> &'static Form {
        &FORMS[self as usize]
    }

    /// So many ends as a record of this version may have: mostly a few. Of version 2 now and then any number, and often
    /// about as many as there may be.
    fn count(self, random: &mut Random) -> usize {
        match self {
            Version::One => count(random).min(32),
            Version::Two => match random.below(12) {
                0 => random.below(601),
                1 => random.pick(&[33, 64, 599, 600]),
                2 => random.below(100),
                _ => count(random),
            },
        }
    }
}

/// A whole record of kind 1 or 2 around its body.
pub fn record(kind: u8, body: &[u8]) -> Vec<u8> {
    record_of(Version::One, kind, body)
}

pub fn record_of(version: Version, kind: u8, body: &[u8]) -> Vec<u8> {
    let length = 2 + body.len() as u16;
    let mut bytes = length.to_be_bytes().to_vec();
    bytes.extend([version.form().version, kind]);
    bytes.extend(body);
    bytes
}

/// A node record around its ends, with good positions.
pub fn node_record(random: &mut Random, ends: &[u8]) -> Vec<u8> {
    node_record_of(random, Version::One, ends)
}

/// The count is cut to as many bytes as the version has.
pub fn node_record_of(random: &mut Random, version: Version, ends: &[u8]) -> Vec<u8> {
    let mut body: Vec<u8> = (0..2).map(|_| 1 + random.below(3) as u8).collect();
    body.extend((0..2).map(|_| random.below(4) as u8));
    let count = (ends.len() / END_BYTES) as u16;
    body.extend(&count.to_be_bytes()[2 - version.form().count_bytes..]);
    body.extend(ends);
    record_of(version, 1, &body)
}

pub fn edge_record(random: &mut Random) -> Vec<u8> {
    edge_record_of(random, Version::One)
}

pub fn edge_record_of(random: &mut Random, version: Version) -> Vec<u8> {
    let labels = Labels {
        paired: false,
        ..Labels::any(random)
    };
    let label = labels.label(random);
    record_of(version, 2, &label)
}

/// A record of either kind that no check before refusal 9 refuses.
pub fn good_record(random: &mut Random) -> Vec<u8> {
    good_record_of(random, Version::One)
}

pub fn good_record_of(random: &mut Random, version: Version) -> Vec<u8> {
    if random.below(4) == 0 {
        return edge_record_of(random, version);
    }
    let count = version.count(random);
    let ends = ends(random, count);
    node_record_of(random, version, &ends)
}

/// A good record with a fault of one of many kinds; some of them leave it good.
pub fn damaged_record(random: &mut Random) -> Vec<u8> {
    damaged_record_of(random, Version::One)
}

pub fn damaged_record_of(random: &mut Random, version: Version) -> Vec<u8> {
    let mut bytes = good_record_of(random, version);
    let first_end = version.form().first_end();
    let at = random.below(bytes.len());
    match random.below(10) {
        0 => bytes.truncate(at),
        1 => bytes[at] = random.byte(),
        2 => bytes[1] = bytes[1].wrapping_add(random.pick(&[1, 2, 15, 240, 241, 255])),
        3 => bytes[2] = random.byte(),
        4 => bytes[3] = random.pick(&[0, 1, 2, 3, 255]),
        5 => bytes[4 + random.below(first_end - 4)] = random.pick(&[0, 4, 33, 255]),
        6 => return of_too_many(random, version),
        7 if bytes[3] == 2 => damage_label(random, &mut bytes[4..]),
        7 | 8 if bytes[3] == 1 => damage_ends(random, &mut bytes[first_end..]),
        _ => {
            // two faults, so that the order of the checks shows
            bytes[at] = random.byte();
            let other = random.below(bytes.len().min(24));
            bytes[other] = random.pick(&[0, 1, 2, 3, 4, 33, 255]);
        }
    }
    bytes
}

/// A node record of more ends than its version takes, its length right for them or not.
fn of_too_many(random: &mut Random, version: Version) -> Vec<u8> {
    let count = random.pick(match version {
        Version::One => &[33, 34, 40, 255],
        Version::Two => &[601, 602, 768, 1024],
    });
    let ends = ends(random, count);
    let mut bytes = node_record_of(random, version, &ends);
    if random.below(3) == 0 {
        let cut = version.form().first_end() + random.below(60);
        bytes.truncate(cut);
        bytes[..2].copy_from_slice(&(cut as u16 - 2).to_be_bytes());
    }
    bytes
}

/// Bytes after a record, which don't matter.
pub fn with_bytes_after(random: &mut Random, mut bytes: Vec<u8>) -> Vec<u8> {
    let count = random.below(20);
    bytes.extend((0..count).map(|_| random.byte()));
    bytes
}

/// A record for each refusal of a record; the first is of this version.
pub fn one_a_refusal(version: u8) -> [Vec<u8>; 9] {
    let one_side = [
        end((1, 0), &[1, 0, 1, 3, 0, 0, 0]),
        end((0, 1), &[1, 0, 0, 1, 0, 0, 0]),
    ];
    [
        vec![0, 2, version, 1],
        vec![0, 2, 1, 3],
        vec![0, 1, 1],
        record(1, &[1, 1, 0, 0, 33]),
        record(1, &[4, 1, 0, 0, 0]),
        record(2, &[2, 1, 0, 0, 1, 0, 0]),
        record(1, &[&[1, 1, 0, 0, 1][..], &[0; 15]].concat()),
        record(1, &[&[1, 1, 0, 0, 2][..], one_side.as_flattened()].concat()),
        vec![1, 0, 1],
    ]
}
