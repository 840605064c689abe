//! Points against outlines: every small one on a grid, random ones of every size, and all that is refused.
//!
//! The crate's `coordinate_position` isn't among the files given, so these calls are held to request R-8's rule alone.

use super::Run;
use crate::ours::plans::PlanCall;
use crate::outline_pieces::{
    ALL_SHAPES, ALL_SIZES, BEYOND, Shape, Size, beside, corner, count, moved, numbers, outline,
    points, reversed, started_elsewhere, with_a_point_on_a_side,
};
use crate::rule_outline::{self, COUNTS, Corner, FARTHEST};

pub fn compare(run: &mut Run) {
    run.begin("outline, every list of 3 corners on a grid of 4 by 4, each of 36 points");
    every_list(run, 3);
    run.begin("outline, every list of 4 corners on a grid of 4 by 4, each of 36 points");
    every_list(run, 4);
    random_outlines(run);
    wrong_counts(run);
    limits_at_every_place(run);
    equal_neighbours(run);
    several_faults(run);
}

fn by_the_rule(corners: &[Corner], point: Corner) -> u32 {
    rule_outline::word(&numbers(corners), point)
}

fn ask(run: &mut Run, corners: &[Corner], point: Corner) {
    run.ask_plan(PlanCall::point_in_outline(&numbers(corners), point));
}

/// The same outline told otherwise, which must be answered alike: by the rule too.
fn ask_alike(run: &mut Run, word: u32, corners: &[Corner], point: Corner) {
    assert_eq!(by_the_rule(corners, point), word, "{corners:?}, {point:?}");
    ask(run, corners, point);
}

/// "Starting the corner list elsewhere or reversing it doesn't alter the answer"
fn ask_turned(run: &mut Run, corners: &[Corner], point: Corner) {
    let word = by_the_rule(corners, point);
    let others = started_elsewhere(&mut run.random, corners);
    ask_alike(run, word, &others, point);
    ask_alike(run, word, &reversed(corners), point);
}

fn every_list(run: &mut Run, count: u32) {
    for list in 0..16_i32.pow(count) {
        let place = |k: u32| list >> (4 * k) & 15;
        let corners: Vec<Corner> = (0..count).map(|k| (place(k) % 4, place(k) / 4)).collect();
        for point in 0..36 {
            ask(run, &corners, (point % 6 - 1, point / 6 - 1));
        }
    }
}

fn kind(size: Size) -> &'static str {
    match size {
        Size::Tiny => "outline, coordinates up to 2: as drawn, started elsewhere, reversed, moved",
        Size::Small => "outline, coordinates up to 9: the same four",
        Size::Floor => "outline, coordinates up to 30,000: the same four",
        Size::Any => "outline, coordinates up to 1,000,000,000: the same four",
        Size::Extreme => "outline, coordinates near the limits, 0 and half way: the same four",
    }
}

fn random_outlines(run: &mut Run) {
    for size in ALL_SIZES {
        run.begin(kind(size));
        for shape in ALL_SHAPES {
            for _ in 0..run.times(1000) {
                random_outline(run, size, shape);
            }
        }
    }
}

fn random_outline(run: &mut Run, size: Size, shape: Shape) {
    let count = count(&mut run.random);
    let mut corners = outline(&mut run.random, size, shape, count);
    let on_a_side = with_a_point_on_a_side(&mut run.random, &mut corners);
    for point in points(&mut run.random, size, &corners, on_a_side) {
        ask(run, &corners, point);
        ask_turned(run, &corners, point);
        let (others, other) = moved(&mut run.random, &corners, point);
        ask_alike(run, by_the_rule(&corners, point), &others, other);
    }
}

/// Also counts that would be good if their high bits were lost.
fn wrong_counts(run: &mut Run) {
    run.begin("outline, every count of numbers up to 140, and large ones");
    let large = [255, 256, 262, 264, 384, 512, 518, 65_536, 65_542, 65_664];
    for count in (0..=140).chain(large) {
        for _ in 0..run.times(20) {
            let size = run.random.pick(&[Size::Tiny, Size::Any, Size::Extreme]);
            let corners: Vec<Corner> = (0..count).map(|_| corner(&mut run.random, size)).collect();
            let mut numbers = numbers(&corners);
            numbers.truncate(count);
            if count > 0 && run.random.below(4) == 0 {
                numbers[run.random.below(count)] = run.random.pick(&BEYOND);
            }
            let point = corner(&mut run.random, size);
            run.ask_plan(PlanCall::point_in_outline(&numbers, point));
        }
        // Some are long: not too many at once.
        run.answer_waiting();
    }
}

/// Sets one of the outline's numbers, or after them the point's.
fn set(corners: &mut [Corner], point: &mut Corner, place: usize, value: i32) {
    let corner = corners.get_mut(place / 2).unwrap_or(point);
    match place % 2 {
        0 => corner.0 = value,
        _ => corner.1 = value,
    }
}

fn limits_at_every_place(run: &mut Run) {
    run.begin("outline, 3 to 64 corners, each coordinate and the point's at the limits and beyond");
    for count in COUNTS {
        for place in 0..2 * count + 2 {
            for value in BEYOND.into_iter().chain([FARTHEST, -FARTHEST]) {
                let size = run.random.pick(&[Size::Tiny, Size::Any, Size::Extreme]);
                let mut corners = outline(&mut run.random, size, Shape::Any, count);
                let mut point = corner(&mut run.random, size);
                set(&mut corners, &mut point, place, value);
                ask(run, &corners, point);
            }
        }
    }
}

/// Almost equal are neighbours that differ in one coordinate, or by one, and equal corners with one between them.
fn equal_neighbours(run: &mut Run) {
    run.begin("outline, 3 to 64 corners, equal neighbours at each place, and almost equal ones");
    for count in COUNTS {
        for place in 0..count {
            let size = run.random.pick(&[Size::Small, Size::Any, Size::Extreme]);
            let corners = outline(&mut run.random, size, Shape::Any, count);
            let (x, y) = corners[place];
            let next = (place + 1) % count;
            let near = beside(&mut run.random, (x, y));
            for other in [(x, y), (x, corners[next].1), (corners[next].0, y), near] {
                let mut corners = corners.clone();
                corners[next] = other;
                let point = run.random.pick(&corners);
                let point = beside(&mut run.random, point);
                ask(run, &corners, point);
            }
            let mut corners = corners;
            corners[(place + 2) % count] = (x, y);
            ask(run, &corners, near);
        }
    }
}

/// So that the order of the refusals shows. What is refused is refused from any corner on, and in reverse.
fn several_faults(run: &mut Run) {
    run.begin("outline, no fault up to three at once: as drawn, started elsewhere, reversed");
    for _ in 0..run.times(20_000) {
        let size = run.random.pick(&[Size::Tiny, Size::Any, Size::Extreme]);
        let count = run
            .random
            .pick(&[1, 2, 3, 3, 4, 5, 8, 63, 64, 64, 65, 66, 100]);
        let mut corners = outline(&mut run.random, size, Shape::Any, count.max(3));
        corners.truncate(count);
        let mut point = corner(&mut run.random, size);
        if run.random.below(2) == 0 {
            let place = run.random.below(count);
            corners[(place + 1) % count] = corners[place];
        }
        if run.random.below(2) == 0 {
            let place = run.random.below(2 * count + 2);
            set(&mut corners, &mut point, place, run.random.pick(&BEYOND));
        }
        ask(run, &corners, point);
        ask_turned(run, &corners, point);
        if run.random.below(4) == 0 {
            let mut numbers = numbers(&corners);
            numbers.pop();
            run.ask_plan(PlanCall::point_in_outline(&numbers, point));
        }
    }
}
