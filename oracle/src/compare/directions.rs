//! The order of directions: pairs of ends whose labels tell which of them comes first, and stars of directions that
//! are nearly equal.
//!
//! A pair is asked about as a star and as a record: the library orders the ends of a record otherwise where all of
//! them lie on an axis.

use super::Run;
use super::stars::{START, area, ask_turned};
use crate::direction_pieces::{Direction, at_a_step, grid, limits, neighbours, turned_by};
use crate::ours::plans::{PlanCall, PlanOp};
use crate::plan_pieces::{Labels, end, record};

type Pair = [[u8; 7]; 2];

/// Two lines of which everything is known: a star hands their labels back as they stand, in order. Joined, both are on
/// the boundary.
const LINES: Pair = [[0, 1, 0, 0, 2, 0, 0], [0, 2, 0, 0, 1, 0, 0]];
/// Two areas with a left and no right: the last one's left is the start of the walk, which everything becomes. So a
/// record raises EI if the second comes last, IE if the first does, and II if both are one bundle.
const LEFTS: Pair = [[1, 0, 1, 0, 0, 3, 0], [1, 0, 3, 0, 0, 1, 0]];

pub fn compare(run: &mut Run) {
    run.begin("star, every pair of directions of parts -20 to 20, in both orders");
    every_pair(run, &grid(), ask_star_of);
    run.begin("record, every pair of directions of parts -20 to 20, in both orders");
    every_pair(run, &grid(), ask_record_of);
    run.begin("star and record, every pair of directions at the limits, in both orders");
    every_pair(run, &limits(), ask_both);
    run.begin("star and record, pairs of neighbouring fractions, in each quadrant");
    for _ in 0..run.times(2_000) {
        let near = neighbours(&mut run.random);
        ask_in_quadrants(run, &near);
    }
    run.begin("star and record, pairs at a step of the order's number, in each quadrant");
    for _ in 0..run.times(500) {
        let near = at_a_step(&mut run.random);
        ask_in_quadrants(run, &near);
    }
    stars(run);
}

fn pair_of(first: Direction, second: Direction, labels: &Pair) -> Vec<u8> {
    [end(first, &labels[0]), end(second, &labels[1])].concat()
}

fn ask_star_of(run: &mut Run, first: Direction, second: Direction) {
    let ends = pair_of(first, second, &LINES);
    run.ask_plan(PlanCall::star(ends, 0, 0));
}

fn ask_record_of(run: &mut Run, first: Direction, second: Direction) {
    let ends = pair_of(first, second, &LEFTS);
    let bytes = record(1, &[&[2, 2, 0, 0, 2], &ends[..]].concat());
    run.ask_plan(PlanCall::on_cells(PlanOp::Record, START, bytes));
}

fn ask_both(run: &mut Run, first: Direction, second: Direction) {
    ask_star_of(run, first, second);
    ask_record_of(run, first, second);
}

fn every_pair(run: &mut Run, all: &[Direction], ask: fn(&mut Run, Direction, Direction)) {
    for first in all {
        for second in all {
            ask(run, *first, *second);
        }
    }
}

/// Every pair of these in each quadrant, and every pair of which each end is in any.
fn ask_in_quadrants(run: &mut Run, near: &[Direction]) {
    for quarters in 0..4 {
        let turned: Vec<_> = near.iter().map(|one| turned_by(quarters, *one)).collect();
        every_pair(run, &turned, ask_both);
    }
    for first in near {
        for second in near {
            let [one, other] = [0, 1].map(|_| run.random.below(4));
            ask_both(run, turned_by(one, *first), turned_by(other, *second));
        }
    }
}

/// Stars of 2 to 32 ends whose directions are drawn from few, at each quarter turn.
fn stars(run: &mut Run) {
    run.begin("star and record, 2 to 32 ends, neighbouring fractions, each turn");
    for _ in 0..run.times(10_000) {
        let sets = 1 + run.random.below(3);
        let near: Vec<_> = (0..sets)
            .flat_map(|_| neighbours(&mut run.random))
            .collect();
        ask_drawn(run, &near);
    }
    run.begin("star and record, 2 to 32 ends, at a step of the order's number, each turn");
    for _ in 0..run.times(5_000) {
        let near = at_a_step(&mut run.random);
        ask_drawn(run, &near);
    }
    run.begin("star and record, 2 to 32 ends, directions at the limits, each turn");
    let good: Vec<_> = limits().into_iter().filter(|one| *one != (0, 0)).collect();
    for _ in 0..run.times(5_000) {
        ask_drawn(run, &good);
    }
}

/// Ends of these directions, all as they are or each in a quadrant of its own.
fn ask_drawn(run: &mut Run, from: &[Direction]) {
    let random = &mut run.random;
    let labels = Labels {
        areas: random.pick(&[1, 5, 9, 10]),
        nones: random.pick(&[1, 3, 5]),
        paired: random.below(4) != 0,
    };
    let quadrants = random.pick(&[1, 4]);
    let any = 2 + random.below(31);
    let count = random.pick(&[2, 3, 4, 8, 31, 32, any]);
    let mut ends = Vec::new();
    for _ in 0..count {
        let quarters = random.below(quadrants);
        let direction = turned_by(quarters, random.pick(from));
        ends.extend(end(direction, &labels.label(random)));
    }
    let areas = [area(run) as u8, area(run) as u8];
    ask_turned(run, ends, areas);
}

#[cfg(test)]
mod tests {
    use super::*;
    use crate::rule_plan::outcome;

    /// Before, same and after are three answers, of a star and of a record.
    #[test]
    fn labels_tell_the_order() {
        let pairs = [((1, 0), (0, 1)), ((3, 0), (1, 0)), ((0, 1), (1, 0))];
        let star = |(first, second)| {
            let due = outcome(&PlanCall::star(pair_of(first, second, &LINES), 0, 0));
            (due.word, due.out[..7 * due.word as usize].to_vec())
        };
        let [first, second] = LINES.map(|label| label.to_vec());
        let [before, same, after] = pairs.map(star);
        assert_eq!(before, (2, [first.clone(), second.clone()].concat()));
        assert_eq!(after, (2, [second, first].concat()));
        assert_eq!(same, (1, vec![0, 2, 0, 0, 2, 0, 0]));
        let record = |(first, second)| {
            let ends = pair_of(first, second, &LEFTS);
            let bytes = record(1, &[&[2, 2, 0, 0, 2], &ends[..]].concat());
            outcome(&PlanCall::on_cells(PlanOp::Record, START, bytes)).out
        };
        let due = [
            [0, 0, 0, 0, 1, 0, 3, 0, 3],
            [3, 0, 0, 0, 1, 0, 0, 0, 3],
            [0, 0, 3, 0, 1, 0, 0, 0, 3],
        ];
        assert_eq!(pairs.map(record), due.map(|cells| cells.to_vec()));
    }
}
