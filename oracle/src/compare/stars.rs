//! Bundles and stars: labels joined, and labels completed.

use super::Run;
use crate::ours::plans::{PlanCall, PlanOp, room_for};
use crate::plan_pieces::{
    ALL_DIRECTIONS, Labels, Version, count, damage_ends, direction, end, ends, record_of, turned,
};
use crate::rule_star::END_BYTES;

pub(super) const START: [u8; 9] = [0, 0, 0, 0, 0, 0, 0, 0, 3];
/// Area codes above 3; some are 0 to 3 in their low byte or low half.
const BAD_AREAS: [u32; 7] = [4, 5, 255, 256, 258, 65_539, u32::MAX];

pub fn compare(run: &mut Run) {
    bundles(run);
    small_bundles(run);
    stars(run);
    small_stars(run);
    every_pair_of_labels(run);
    damaged(run);
    bad_areas(run);
    no_whole_ends(run);
}

/// Stars and records at each quarter turn: which bundle is the last goes by the turn, whether a geometry is collapsed
/// doesn't.
pub fn compare_turned(run: &mut Run) {
    run.begin("star and record, two bundles, every code of A twice, each area position, each turn");
    for first in every_half() {
        for second in every_half() {
            for area in 0..4 {
                let ends = [end((1, 0), &first), end((0, 1), &second)].concat();
                ask_turned(run, ends, [area, 0]);
            }
        }
    }
    run.begin("star and record, random, mostly lines, each turn");
    for _ in 0..run.times(20_000) {
        let labels = Labels {
            areas: run.random.pick(&[0, 1, 3]),
            nones: run.random.pick(&[2, 5]),
            paired: run.random.below(4) != 0,
        };
        let kind = run.random.pick(&ALL_DIRECTIONS);
        let mut ends = Vec::new();
        for _ in 0..2 + run.random.below(5) {
            let direction = direction(&mut run.random, kind);
            ends.extend(end(direction, &labels.label(&mut run.random)));
        }
        let areas = [area(run) as u8, area(run) as u8];
        ask_turned(run, ends, areas);
    }
}

/// A star and its record on the start matrix, at each quarter turn. Above 32 ends the record is of version 2.
pub(super) fn ask_turned(run: &mut Run, mut ends: Vec<u8>, areas: [u8; 2]) {
    let [a, b] = areas;
    let node = [0, 1].map(|_| 1 + run.random.below(3) as u8);
    let count = ends.len() / END_BYTES;
    let version = if count > 32 {
        Version::Two
    } else {
        Version::One
    };
    let head = [node[0], node[1], a, b];
    let both = (count as u16).to_be_bytes();
    let head = [&head[..], &both[2 - version.form().count_bytes..]].concat();
    for _ in 0..4 {
        let bytes = record_of(version, 1, &[&head[..], &ends].concat());
        let room = room_for(count.max(32));
        run.ask_plan(PlanCall::star_in(room, ends.clone(), a.into(), b.into()));
        run.ask_plan(PlanCall::on_cells(PlanOp::Record, START, bytes));
        ends = turned(&ends);
    }
}

pub(super) fn area(run: &mut Run) -> u32 {
    run.random.below(4) as u32
}

fn ask_star(run: &mut Run, ends: Vec<u8>) {
    let (a, b) = (area(run), area(run));
    run.ask_plan(PlanCall::star(ends, a, b));
}

fn bundles(run: &mut Run) {
    run.begin("bundle, random, 0 to 34 ends");
    for _ in 0..run.times(120_000) {
        let count = count(&mut run.random);
        let ends = ends(&mut run.random, count);
        run.ask_plan(PlanCall::bundle(ends));
    }
}

fn small_bundles(run: &mut Run) {
    run.begin("bundle, one end and two, every code of A with every code of A");
    for first in every_half() {
        run.ask_plan(PlanCall::bundle(end((1, 0), &first).to_vec()));
        for second in every_half() {
            let ends = [end((1, 0), &first), end((-1, 0), &second)].concat();
            run.ask_plan(PlanCall::bundle(ends));
        }
    }
}

/// Every label that says something of A and nothing of B.
fn every_half() -> impl Iterator<Item = [u8; 7]> {
    let line = (0..4).map(|on| [0, on, 0, 0, 0, 0, 0]);
    line.chain((0..64).map(|codes| [1, codes & 3, codes >> 2 & 3, codes >> 4, 0, 0, 0]))
}

fn stars(run: &mut Run) {
    run.begin("star, random, 0 to 34 ends");
    for _ in 0..run.times(120_000) {
        let count = count(&mut run.random);
        let ends = ends(&mut run.random, count);
        ask_star(run, ends);
    }
}

/// Two to four ends in bundles of their own, given in any order: start, walk and collapse in few steps.
fn small_stars(run: &mut Run) {
    run.begin("star, two to four directions of their own");
    let around = [
        (3, 0),
        (1, 2),
        (0, 1),
        (-2, 1),
        (-1, 0),
        (-1, -1),
        (0, -5),
        (2, -1),
    ];
    for _ in 0..run.times(60_000) {
        let mut directions = around;
        let labels = Labels {
            areas: run.random.pick(&[3, 5, 9]),
            nones: run.random.pick(&[2, 5]),
            paired: run.random.below(2) == 0,
        };
        let mut ends = Vec::new();
        for place in 0..2 + run.random.below(3) {
            directions.swap(place, place + run.random.below(8 - place));
            let label = labels.label(&mut run.random);
            ends.extend(end(directions[place], &label));
        }
        ask_star(run, ends);
    }
}

/// The walk, the single side and the collapse, over all that two bundles can say of A.
fn every_pair_of_labels(run: &mut Run) {
    run.begin("star, two bundles, every code of A with every code of A");
    for first in every_half() {
        for second in every_half() {
            let ends = [end((1, 0), &first), end((0, 1), &second)].concat();
            ask_star(run, ends);
        }
    }
}

fn damaged(run: &mut Run) {
    run.begin("bundle, ends with a fault");
    for _ in 0..run.times(20_000) {
        let ends = damaged_ends(run);
        run.ask_plan(PlanCall::bundle(ends));
    }
    run.begin("star, ends with a fault");
    for _ in 0..run.times(20_000) {
        let ends = damaged_ends(run);
        ask_star(run, ends);
    }
}

fn damaged_ends(run: &mut Run) -> Vec<u8> {
    let count = count(&mut run.random);
    let mut ends = ends(&mut run.random, count);
    damage_ends(&mut run.random, &mut ends);
    ends
}

fn bad_areas(run: &mut Run) {
    run.begin("star, an area code above 3, ends with a fault or without, some no whole ends");
    for bad in BAD_AREAS {
        for other in (0..4).chain(BAD_AREAS) {
            for (a, b) in [(bad, other), (other, bad)] {
                for _ in 0..run.times(20) {
                    let mut ends = damaged_ends(run);
                    if run.random.below(4) == 0 {
                        ends.push(run.random.byte());
                    }
                    run.ask_plan(PlanCall::star(ends, a, b));
                }
            }
        }
    }
}

fn no_whole_ends(run: &mut Run) {
    run.begin("bundle and star, bytes that are no whole ends");
    for _ in 0..run.times(5_000) {
        let mut ends = damaged_ends(run);
        let more = 1 + run.random.below(14);
        ends.extend((0..more).map(|_| run.random.byte()));
        run.ask_plan(PlanCall::bundle(ends.clone()));
        ask_star(run, ends);
    }
}
