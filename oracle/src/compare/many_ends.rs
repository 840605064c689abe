//! Request R-11: bundle and star calls and records of up to 600 ends and above, beside the crate's files, which have no
//! cap; records of version 2; the room for a star's labels.

use super::Run;
use super::records::ask;
use super::stars::{START, area, ask_turned};
use crate::direction_pieces::neighbours;
use crate::floor_pieces::{Cut, accepted_node_of, any_cut, any_floor_of, cut, cut_at};
use crate::ours::plans::{PlanCall, PlanOp, room_for};
use crate::plan_pieces::{
    ALL_DIRECTIONS, Labels, Version, damage_ends, damaged_record_of, edge_record_of, end, ends,
    ends_of, good_record_of, node_record_of, with_bytes_after,
};
use crate::rule_plan;
use crate::rule_star::{END_BYTES, LABEL_BYTES};

/// One more than any call takes.
const MOST: usize = 601;
/// The counts that request R-11 names, and those beside them.
const NAMED: [usize; 8] = [32, 33, 34, 63, 64, 599, 600, 601];
/// The longest accepted record.
const LONGEST: usize = 9010;

pub fn compare(run: &mut Run) {
    every_count(run);
    named_counts(run);
    room(run);
    good_and_damaged(run);
    truncated(run);
    every_byte(run);
    heads(run);
    floors(run);
    pieces(run);
}

/// Labels of which most stars have no single side, so that they are completed and poured.
const MOSTLY_GOOD: Labels = Labels {
    areas: 8,
    nones: 2,
    paired: true,
};

fn ask_star(run: &mut Run, ends: Vec<u8>) {
    let (a, b) = (area(run), area(run));
    let room = room_for(ends.len() / END_BYTES);
    run.ask_plan(PlanCall::star_in(room, ends, a, b));
}

/// The same ends as a bundle, as a star and as a record of either version: version 1 can tell of 255.
fn ask_all(run: &mut Run, ends: Vec<u8>) {
    run.ask_plan(PlanCall::bundle(ends.clone()));
    for version in [Version::One, Version::Two] {
        if ends.len() <= 255 * END_BYTES || version.form().count_bytes == 2 {
            let bytes = node_record_of(&mut run.random, version, &ends);
            run.ask_plan(PlanCall::on_cells(PlanOp::Record, START, bytes));
        }
    }
    ask_star(run, ends);
}

fn every_count(run: &mut Run) {
    run.begin("bundle, star and record of both versions, every count of ends up to 601");
    for count in 0..=MOST {
        for directions in ALL_DIRECTIONS {
            let ends = ends_of(&mut run.random, count, directions, MOSTLY_GOOD);
            ask_all(run, ends);
        }
    }
}

fn named_counts(run: &mut Run) {
    run.begin("bundle, star and record of both versions, 32 to 34, 63, 64, 599 to 601 ends");
    for _ in 0..run.times(20) {
        for count in NAMED {
            let mut all = ends(&mut run.random, count);
            ask_all(run, all.clone());
            damage_ends(&mut run.random, &mut all);
            ask_all(run, all);
        }
    }
    run.begin("star and record, 33 to 600 ends, neighbouring fractions");
    for _ in 0..run.times(100) {
        let near: Vec<_> = (0..150).flat_map(|_| neighbours(&mut run.random)).collect();
        for count in [33, 64, 600] {
            let mut all = Vec::new();
            for _ in 0..count {
                let direction = run.random.pick(&near);
                all.extend(end(direction, &MOSTLY_GOOD.label(&mut run.random)));
            }
            ask_all(run, all);
        }
    }
    run.begin("star and record, 33 to 600 ends, each turn");
    for _ in 0..run.times(200) {
        let count = 33 + run.random.below(568);
        let directions = run.random.pick(&ALL_DIRECTIONS);
        let all = ends_of(&mut run.random, count, directions, MOSTLY_GOOD);
        let areas = [area(run) as u8, area(run) as u8];
        ask_turned(run, all, areas);
    }
}

/// About as much as the labels need: 12 is looked for last, behind 9.
fn room(run: &mut Run) {
    run.begin("star, room about what its labels need");
    for _ in 0..run.times(200) {
        let count = run.random.pick(&[0, 1, 2, 4, 31, 32, 33, 40, 600, 601]);
        let directions = run.random.pick(&ALL_DIRECTIONS);
        let mut all = ends_of(&mut run.random, count, directions, MOSTLY_GOOD);
        if run.random.below(8) == 0 {
            damage_ends(&mut run.random, &mut all);
        }
        let (a, b) = (area(run), area(run));
        let widest = PlanCall::star_in(room_for(count), all.clone(), a, b);
        let due = rule_plan::outcome(&widest).word as usize;
        let labels = if due <= count { due } else { count };
        let need = LABEL_BYTES * labels;
        let fewer = (1..=8).map(|less| need.saturating_sub(less));
        let more = (0..=8).map(|more| need + more);
        let rooms = fewer.chain(more).chain([0, 1, 6, 7, room_for(600)]);
        for room in rooms {
            run.ask_plan(PlanCall::star_in(room, all.clone(), a, b));
        }
    }
}

fn good_and_damaged(run: &mut Run) {
    run.begin("record of version 2, good, both kinds, bytes after it or none");
    for _ in 0..run.times(20_000) {
        let mut bytes = good_record_of(&mut run.random, Version::Two);
        if run.random.below(4) == 0 {
            bytes = with_bytes_after(&mut run.random, bytes);
        }
        ask(run, bytes);
    }
    run.begin("record of version 2, damaged");
    for _ in 0..run.times(20_000) {
        let mut bytes = damaged_record_of(&mut run.random, Version::Two);
        if run.random.below(4) == 0 {
            bytes = with_bytes_after(&mut run.random, bytes);
        }
        ask(run, bytes);
    }
}

/// A record of kind 2, and nodes of few ends.
fn small(run: &mut Run) -> Vec<Vec<u8>> {
    let mut records = vec![edge_record_of(&mut run.random, Version::Two)];
    for count in 0..4 {
        records.push(accepted_node_of(&mut run.random, Version::Two, count));
    }
    records
}

/// Small ones and one above 32 at every byte, the longest at its first and last ones.
fn truncated(run: &mut Run) {
    run.begin("record of version 2, cut at every byte");
    let mut records = small(run);
    records.push(accepted_node_of(&mut run.random, Version::Two, 33));
    for record in records {
        for count in 0..=record.len() {
            ask(run, record[..count].to_vec());
        }
    }
    let longest = accepted_node_of(&mut run.random, Version::Two, 600);
    assert_eq!(longest.len(), LONGEST);
    for count in (0..40).chain(LONGEST - 40..=LONGEST) {
        ask(run, longest[..count].to_vec());
    }
}

fn every_byte(run: &mut Run) {
    run.begin("record of version 2, every byte of small ones set to every value");
    for record in small(run) {
        for place in 0..record.len() {
            for byte in 0..=255 {
                let mut bytes = record.clone();
                bytes[place] = byte;
                ask(run, bytes.clone());
                bytes.resize(300, run.random.byte());
                ask(run, bytes);
            }
        }
    }
}

/// Lengths about the shortest and the longest, with counts whose high byte tells: a count read as one byte would be
/// another.
fn heads(run: &mut Run) {
    run.begin("record, lengths and counts about the limits, both versions and their neighbours");
    let counts = [
        0, 1, 2, 32, 33, 255, 256, 257, 288, 599, 600, 601, 856, 65_535,
    ];
    let lengths = (0..=24).chain([503, 9007, 9008, 9009, 9023, 9024, 65_534, 65_535]);
    for length in lengths {
        for version in [0, 1, 2, 3, 255] {
            for kind in [0, 1, 2, 3] {
                for count in counts {
                    let mut bytes = u16::to_be_bytes(length).to_vec();
                    bytes.extend([version, kind, 1, 2, 3, 0]);
                    bytes.extend(u16::to_be_bytes(count));
                    let whole = 2 + usize::from(length);
                    bytes.resize(whole + run.random.pick(&[0, 0, 7]), 1);
                    ask(run, bytes);
                }
            }
        }
    }
}

/// In one call, a call a record, and in pieces.
fn floors(run: &mut Run) {
    run.begin("floor, records of both versions, damaged or not");
    for _ in 0..run.times(4000) {
        let damaged = run.random.below(2) == 0;
        let bytes = any_floor_of(&mut run.random, Version::either, 6, damaged);
        let cells = run.random.cells();
        for op in [PlanOp::Floor, PlanOp::OneByOne] {
            run.ask_plan(PlanCall::floor(op, cells, bytes.clone()));
        }
        let counts = any_cut(&mut run.random, bytes.len());
        run.ask_plan(PlanCall::pieces(cells, &counts, bytes));
    }
}

/// The longest record among others: cut about its start, its end and what is held of one, and into pieces of some sizes.
fn pieces(run: &mut Run) {
    run.begin("floor in pieces, the longest record of version 2, cut about its start and its end");
    for _ in 0..run.times(2) {
        let longest = accepted_node_of(&mut run.random, Version::Two, 600);
        let edge = edge_record_of(&mut run.random, Version::One);
        let node = accepted_node_of(&mut run.random, Version::Two, 33);
        let whole = [&edge[..], &longest, &node, &longest, &edge].concat();
        let cells = run.random.cells();
        let start = edge.len();
        for early in 0..=12 {
            for late in (488..=493).chain(LONGEST - 2..=LONGEST + 3) {
                for more in [0, 1, 12] {
                    let places = [early, late, late + more].map(|place| start + place);
                    let counts = cut_at(whole.len(), &places);
                    run.ask_plan(PlanCall::pieces(cells, &counts, whole.clone()));
                }
            }
        }
        for size in [1, 7, 489, 490, 491, 4096, LONGEST - 1, LONGEST, LONGEST + 1] {
            let counts = cut(&mut run.random, whole.len(), Cut::Each(size));
            run.ask_plan(PlanCall::pieces(cells, &counts, whole.clone()));
        }
    }
}

/// Square walls as a rack pillar has them: 600 ends in four bundles, and the label of each counted up.
#[cfg(test)]
mod tests {
    use super::*;
    use crate::plan_pieces::Directions;
    use crate::random::Random;
    use crate::rule_star;

    #[test]
    fn six_hundred_square_walls_are_four_bundles() {
        let random = &mut Random::new(1);
        let all = ends_of(random, 600, Directions::Axes, MOSTLY_GOOD);
        let ends = rule_star::ends(&all).expect("600 are taken");
        assert_eq!(rule_star::bundles(&ends).len(), 4);
        let more = ends_of(random, 601, Directions::Axes, MOSTLY_GOOD);
        assert_eq!(rule_star::ends(&more), Err(rule_star::TOO_MANY_ENDS));
    }
}
