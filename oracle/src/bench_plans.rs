//! The lines of stars, plan records and stored reports.
//!
//! Records: from bytes to the poured matrix on both sides; the crate's side reads the same bytes, with the same checks,
//! straight into the crate's own types. Nodes: a star built, completed and poured; stars: the completed labels. In both the
//! crate's side is given its ends already read, ours reads them from bytes. Reports: a file of them converted, both ways;
//! the crate has none, so ours stands alone.

use crate::asked;
use crate::asked_star::{self, code_position, completed, graph, ready_ends};
use crate::bench::measure;
use crate::ours::plans::{HELD, LABELS, PlanCall, room_for};
use crate::plan_pieces::{Directions, Version, direction, end, record_of};
use crate::random::Random;
use crate::relate::geomgraph::intersection_matrix::IntersectionMatrix;
use crate::relate::geomgraph::{EdgeEnd, GeometryGraph};
use crate::rule_plan;
use crate::rule_report::{LONG_BYTES, SHORT_BYTES, long, short};
use std::time::Instant;

#[cfg(linked)]
use crate::ours::linked;

/// Nothing of the library can be called on this processor, and nothing of this is.
#[cfg(not(linked))]
mod linked {
    pub fn record(_: &mut [u8; 9], _: &[u8]) -> u32 {
        unreachable!()
    }

    pub fn star(_: &[u8], _: u32, _: u32, _: &mut [u8]) -> u32 {
        unreachable!()
    }

    pub fn convert_report(_: &[u8], _: &mut [u8], _: usize) -> u32 {
        unreachable!()
    }
}

/// A star has many branches of its own, so that fewer of them than of matrices can't be learnt by heart either. Of the
/// largest there are as many ends as of 32 in all.
pub(crate) const INPUTS: usize = 2048;
const LARGE_INPUTS: usize = 128;

/// In a file; its rounds.
const REPORTS: usize = 1 << 18;
const REPORT_ROUNDS: usize = 60;

const SIZES: [usize; 3] = [4, 8, 32];
/// Request R-11.
const LARGE: usize = 600;
const LARGE_SEED: u64 = 11;
const START: [u8; 9] = [0, 0, 0, 0, 0, 0, 0, 0, 3];
const AXES: [(i32, i32); 4] = [(1, 0), (0, 1), (-1, 0), (0, -1)];

/// One node: as a record, of version 2 if it has too many ends for version 1, and as the crate keeps its ends.
pub(crate) struct Node {
    pub(crate) record: Vec<u8>,
    first_end: usize,
    areas: [u8; 2],
    ends: Vec<EdgeEnd<f64>>,
    graphs: [GeometryGraph<'static, f64>; 2],
    matrix: IntersectionMatrix,
}

impl Node {
    fn end_bytes(&self) -> &[u8] {
        &self.record[self.first_end..]
    }
}

/// Square walls lie on the axes, one after the other; others as their directions are chosen. Each bounds A or B.
pub(crate) fn node(random: &mut Random, count: usize, walls: Directions) -> Node {
    let version = if count > 32 {
        Version::Two
    } else {
        Version::One
    };
    let areas = [random.below(4) as u8, random.below(4) as u8];
    let mut body = vec![2, 2, areas[0], areas[1]];
    body.extend(&(count as u16).to_be_bytes()[2 - version.form().count_bytes..]);
    for number in 0..count {
        let direction = if let Directions::Axes = walls {
            let (x, y) = AXES[number % 4];
            let length = 1 + random.below(10_000) as i32;
            (x * length, y * length)
        } else {
            direction(random, walls)
        };
        let sides = random.pick(&[[2, 1, 3], [2, 3, 1]]);
        let mut label = [1, 0, 0, 0, 0, 0, 0];
        let at = random.pick(&[1, 4]);
        label[at..at + 3].copy_from_slice(&sides);
        body.extend(end(direction, &label));
    }
    let record = record_of(version, 1, &body);
    let first_end = version.form().first_end();
    let area = |code| graph(code_position(code).expect("a code of 0 to 3"));
    Node {
        areas,
        first_end,
        ends: ready_ends(&record[first_end..]).expect("the ends are good"),
        graphs: areas.map(area),
        matrix: asked::matrix(&START),
        record,
    }
}

const WALLS: [(Directions, &str); 4] = [
    (Directions::Axes, "square walls"),
    (Directions::Any, "any directions"),
    (Directions::Mixed, "square and slanted walls mixed"),
    (Directions::Near, "near-equal directions shuffled"),
];

pub(crate) fn measure_all(random: &mut Random) {
    for (directions, walls) in WALLS {
        for count in SIZES {
            let nodes: Vec<_> = (0..INPUTS)
                .map(|_| node(random, count, directions))
                .collect();
            measure_node(&format!("{count} ends, {walls}"), &nodes);
            measure_stars::<LABELS>(&format!("star of {count} ends, {walls}"), &nodes);
        }
    }
    // From a generator of their own, so that the other lines have the inputs that they had without these.
    let random = &mut Random::new(LARGE_SEED);
    for (directions, walls) in WALLS {
        let nodes: Vec<_> = (0..LARGE_INPUTS)
            .map(|_| node(random, LARGE, directions))
            .collect();
        measure_node(&format!("{LARGE} ends, {walls}"), &nodes);
        let name = format!("star of {LARGE} ends, {walls}");
        measure_stars::<{ room_for(LARGE) }>(&name, &nodes);
    }
}

fn measure_node(what: &str, nodes: &[Node]) {
    measure_records(&format!("record of {what}"), nodes);
    measure_nodes(&format!("node of {what}"), nodes);
}

fn measure_records(name: &str, nodes: &[Node]) {
    measure(
        name,
        nodes,
        |node| {
            let mut matrix = node.matrix.clone();
            let used = asked_star::record(&mut matrix, &node.record);
            (used, matrix)
        },
        |node| {
            let mut cells = START;
            let used = linked::record(&mut cells, &node.record);
            (used, cells)
        },
        |node| {
            let (used, cells) = rule_plan::record(&START, &node.record).expect("it is good");
            (used, cells)
        },
    );
}

/// A star built, completed and poured. The crate's side has its ends in its own types before the clock starts; ours has
/// no call for that and reads the whole record, so its time holds the reading too.
fn measure_nodes(name: &str, nodes: &[Node]) {
    measure(
        name,
        nodes,
        |node| {
            let mut matrix = node.matrix.clone();
            asked_star::poured(&mut matrix, &node.ends, &node.graphs);
            matrix
        },
        |node| {
            let mut cells = START;
            linked::record(&mut cells, &node.record);
            cells
        },
        |node| {
            rule_plan::record(&START, &node.record)
                .expect("it is good")
                .1
        },
    );
}

/// With room for so many bytes of labels.
fn measure_stars<const ROOM: usize>(name: &str, nodes: &[Node]) {
    measure(
        name,
        nodes,
        |node| completed(&node.ends, &node.graphs),
        |node| {
            let [a, b] = node.areas.map(u32::from);
            let mut labels = [HELD; ROOM];
            let count = linked::star(node.end_bytes(), a, b, &mut labels);
            (count, labels)
        },
        |node| {
            let [a, b] = node.areas.map(u32::from);
            let ends = node.end_bytes().to_vec();
            let due = rule_plan::outcome(&PlanCall::star_in(ROOM, ends, a, b));
            (due.word, due.out.try_into().expect("the room lent"))
        },
    );
}

/// Converts a whole file into another, report by report, each call lent all that is left. It answers the bytes read.
#[inline(never)]
fn convert_file(from: &[u8], to: &mut [u8]) -> usize {
    let (mut read, mut written) = (0, 0);
    while written < to.len() {
        let bytes = linked::convert_report(&from[read..], to, written) as usize;
        written += bytes;
        read += LONG_BYTES + SHORT_BYTES - bytes;
    }
    read
}

/// Best of the rounds. MB are 1,000,000 bytes of the file that is read.
fn measure_file(name: &str, from: &[u8], right: &[u8]) {
    let mut to = vec![0; right.len()];
    let mut best = f64::MAX;
    for _ in 0..REPORT_ROUNDS {
        let begun = Instant::now();
        let read = convert_file(from, &mut to);
        best = best.min(begun.elapsed().as_secs_f64());
        assert_eq!(read, from.len(), "{name}: not every report is accepted");
    }
    assert!(
        to == right,
        "{name}: the library's bytes aren't request R-3's"
    );
    let speed = from.len() as f64 / best / 1e6;
    let each = best * 1e9 / REPORTS as f64;
    println!("| {name} | {speed:.0} | {each:.2} |");
}

/// A table of its own.
pub(crate) fn measure_reports(random: &mut Random) {
    let matrices: Vec<_> = (0..REPORTS).map(|_| random.cells()).collect();
    let long: Vec<u8> = matrices.iter().flat_map(long).collect();
    let short: Vec<u8> = matrices.iter().flat_map(short).collect();
    println!();
    println!("A file of {REPORTS} stored reports converted, best of {REPORT_ROUNDS} rounds.");
    println!("The crate has no reports: ours stands alone, without a ratio.");
    println!();
    println!("| call | MB/s of the file read | ns a report |");
    println!("|---|---:|---:|");
    measure_file("reports of twelve bytes to six", &long, &short);
    measure_file("reports of six bytes to twelve", &short, &long);
}
