//! The sample's lines of points in outlines, by request R-8's rule: what is refused, outlines that cross or touch
//! themselves, the limits, and as many corners as there may be.

use crate::ours::plans::PlanCall;
use crate::outline_pieces::{
    ALL_SHAPES, ALL_SIZES, BEYOND, Shape, Size, beside, corner, numbers, outline, points, reversed,
    started_elsewhere, with_a_point_on_a_side,
};
use crate::random::Random;
use crate::rule_outline::{Corner, FARTHEST};

/// Of its own, so that the lines above don't hang on these.
const SEED: u64 = 8;

pub const HEAD: &str = "\
# I misonkandi_point_in_outline, a and b the point's x and y; given are x and y of each corner in turn, 4 bytes each. A
# number below zero is its two's complement. The answer is 1 inside, 2 on the boundary, 3 outside.
# I, in the lines that follow: request R-8's rule alone (oracle/src/rule_outline.rs). The crate's coordinate_position
# isn't among the files given.
";

const L: i32 = FARTHEST;

/// Outlines whose answers are easily got wrong.
const KNOWN: [&[Corner]; 9] = [
    // a square; then with corners in the middle of its sides
    &[(0, 0), (4, 0), (4, 4), (0, 4)],
    &[(0, 0), (2, 0), (4, 0), (4, 2), (4, 4), (0, 4), (0, 2)],
    // a bow tie; a square with a spike to the right
    &[(0, 0), (4, 4), (4, 0), (0, 4)],
    &[(0, 0), (3, 0), (3, 2), (5, 2), (3, 2), (3, 4), (0, 4)],
    // teeth whose tips are level; a square twice round
    &[(0, 0), (1, 2), (2, 0), (3, 2), (4, 0), (4, 4), (0, 4)],
    &[
        (0, 0),
        (4, 0),
        (4, 4),
        (0, 4),
        (0, 0),
        (4, 0),
        (4, 4),
        (0, 4),
    ],
    // two squares that share a corner; a star of five points
    &[(0, 0), (2, 0), (2, 4), (4, 4), (4, 2), (0, 2)],
    &[(2, 4), (1, 0), (4, 3), (0, 3), (3, 0)],
    // a line there and back
    &[(0, 0), (4, 2), (2, 1)],
];

pub fn calls() -> Vec<PlanCall> {
    let random = &mut Random::new(SEED);
    let mut calls = known();
    calls.extend(several(random));
    calls.extend(at_the_limits());
    calls.extend(wrong_counts(random));
    calls.extend(out_of_range(random));
    calls.extend(equal_neighbours(random));
    calls.extend(several_faults(random));
    calls
}

fn call(corners: &[Corner], point: Corner) -> PlanCall {
    PlanCall::point_in_outline(&numbers(corners), point)
}

fn known() -> Vec<PlanCall> {
    let points = [
        (-1, 2),
        (0, 2),
        (1, 2),
        (2, 2),
        (3, 2),
        (5, 2),
        (2, 3),
        (1, 4),
    ];
    let on_all = |corners| points.map(|point| call(corners, point));
    KNOWN.into_iter().flat_map(on_all).collect()
}

/// Random ones of every size and shape, of few corners and of 64, with the last of their points: on a side, beside it,
/// between corners. Some start elsewhere, and some are reversed.
fn several(random: &mut Random) -> Vec<PlanCall> {
    let mut calls = Vec::new();
    for (size, shape) in ALL_SIZES
        .iter()
        .flat_map(|size| ALL_SHAPES.map(|shape| (*size, shape)))
    {
        let few = 3 + random.below(6);
        for (count, skipped) in [(few, 4), (64, 7)] {
            let mut corners = outline(random, size, shape, count);
            let on_a_side = with_a_point_on_a_side(random, &mut corners);
            let points = points(random, size, &corners, on_a_side);
            for point in points.into_iter().skip(skipped) {
                calls.push(match random.below(4) {
                    0 => call(&reversed(&corners), point),
                    1 => call(&started_elsewhere(random, &corners), point),
                    _ => call(&corners, point),
                });
            }
        }
    }
    calls
}

/// The largest square; points that a side misses by the 2,000,000,000th part of a millimetre.
fn at_the_limits() -> Vec<PlanCall> {
    let square = [(-L, -L), (L, -L), (L, L), (-L, L)];
    let above = [(-L, -L), (L, L - 1), (L, L)];
    let below = [(-L, 1 - L), (L, L), (L, -L)];
    let mut calls = Vec::new();
    for point in [(0, 0), (L, L), (-L, 5), (7, -L), (L - 1, 1 - L)] {
        calls.push(call(&square, point));
    }
    for corners in [above, below] {
        let turned = corners.map(|(x, y)| (-y, x));
        for (x, y) in [(L - 1, L - 1), (L - 1, L - 2), (0, 0), (1, 0), (L - 1, L)] {
            calls.push(call(&corners, (x, y)));
            calls.push(call(&turned, (-y, x)));
        }
    }
    calls
}

/// None, too few, half a corner too many, 65 and 66 corners, as many as a line has room for.
fn wrong_counts(random: &mut Random) -> Vec<PlanCall> {
    let mut calls = Vec::new();
    let short = [0, 1, 2, 3, 4, 5, 7, 9];
    let long = [127, 129, 130, 131, 132, 133, 149, 150];
    for count in short.into_iter().chain(long) {
        let numbers = numbers(&outline(random, Size::Floor, Shape::Any, 75));
        calls.push(PlanCall::point_in_outline(&numbers[..count], (1, 1)));
    }
    calls
}

/// At each place of three corners, then at some of 64, and in the point; beyond the limits, and at them.
fn out_of_range(random: &mut Random) -> Vec<PlanCall> {
    let mut calls = Vec::new();
    let places = (0..6).map(|place| (3, place));
    let some = [0, 63, 126, 127].map(|place| (64, place));
    for (count, place) in places.chain(some) {
        for value in [L + 1, -L - 1, i32::MAX, i32::MIN, L, -L] {
            let corners = outline(random, Size::Floor, Shape::Any, count);
            let mut numbers = numbers(&corners);
            numbers[place] = value;
            calls.push(PlanCall::point_in_outline(&numbers, (5, 5)));
        }
    }
    for value in BEYOND.into_iter().chain([L, -L]) {
        let corners = outline(random, Size::Floor, Shape::Any, 4);
        calls.push(call(&corners, (value, 5)));
        calls.push(call(&corners, (5, value)));
    }
    calls
}

/// At each place of three to five corners, and at some of 64; neighbours that are equal but for one coordinate; equal
/// corners with one between them.
fn equal_neighbours(random: &mut Random) -> Vec<PlanCall> {
    let mut calls = Vec::new();
    for (count, step) in [(3, 1), (4, 1), (5, 1), (64, 21)] {
        for place in (0..count).step_by(step) {
            let corners = outline(random, Size::Floor, Shape::Any, count);
            let (x, y) = corners[place];
            let (next_x, next_y) = corners[(place + 1) % count];
            let mut others = vec![(x, y)];
            if count == 4 {
                others.extend([(x, next_y), (next_x, y)]);
            }
            for other in others {
                let mut corners = corners.clone();
                corners[(place + 1) % count] = other;
                calls.push(call(&corners, beside(random, (x, y))));
            }
        }
    }
    let twice = [(0, 0), (3, 1), (0, 0), (-2, 5)];
    calls.extend([(0, 0), (1, 1), (-1, 3)].map(|point| call(&twice, point)));
    calls
}

/// Counts of corners, and sums of faults: 1 half a corner less, 2 a coordinate out of range, 4 equal neighbours.
const FAULTS: [(usize, usize); 10] = [
    (2, 6),
    (2, 4),
    (3, 7),
    (3, 6),
    (3, 5),
    (3, 3),
    (5, 6),
    (64, 6),
    (65, 6),
    (65, 4),
];

/// Two and three at once, so that the order shows: 16, 17, 18.
fn several_faults(random: &mut Random) -> Vec<PlanCall> {
    let mut calls = Vec::new();
    for (count, faults) in FAULTS {
        for in_the_point in [false, true] {
            let mut corners = outline(random, Size::Floor, Shape::Any, count.max(3));
            corners.truncate(count);
            let mut point = corner(random, Size::Floor);
            let place = random.below(count);
            if faults & 4 != 0 {
                corners[(place + 1) % count] = corners[place];
            }
            if faults & 2 != 0 {
                let value = random.pick(&BEYOND);
                match in_the_point {
                    true => point.1 = value,
                    false => corners[(place + 2) % count].0 = value,
                }
            }
            let mut numbers = numbers(&corners);
            numbers.truncate(numbers.len() - (faults & 1));
            calls.push(PlanCall::point_in_outline(&numbers, point));
        }
    }
    calls
}
