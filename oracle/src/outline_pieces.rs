//! Pieces that outlines, and points beside them, are made of.

use crate::random::Random;
use crate::rule_outline::{Corner, FARTHEST};

/// How large the coordinates of one outline are.
#[derive(Clone, Copy)]
pub enum Size {
    /// −2 to 2: sides lie on each other, and points level with corners, almost always.
    Tiny,
    /// −9 to 9.
    Small,
    /// A floor of 30 metres.
    Floor,
    /// Any coordinates that are admitted.
    Any,
    /// The farthest coordinates, and what lies next to them and to 0.
    Extreme,
}

/// What an outline looks like. None of them need be simple.
#[derive(Clone, Copy)]
pub enum Shape {
    Any,
    /// Sides along x and along y by turns.
    Walls,
    /// All corners on one line, which nothing is inside of.
    Flat,
    /// The same corners two or three times, if there is room.
    Laps,
}

pub const ALL_SIZES: [Size; 5] = [
    Size::Tiny,
    Size::Small,
    Size::Floor,
    Size::Any,
    Size::Extreme,
];
pub const ALL_SHAPES: [Shape; 4] = [Shape::Any, Shape::Walls, Shape::Flat, Shape::Laps];

/// Coordinates that are out of range.
pub const BEYOND: [i32; 6] = [
    FARTHEST + 1,
    -FARTHEST - 1,
    i32::MAX,
    i32::MIN,
    i32::MIN + 1,
    2 * FARTHEST,
];

pub fn coordinate(random: &mut Random, size: Size) -> i32 {
    let within = |random: &mut Random, most: i32| random.below(2 * most as usize + 1) as i64;
    match size {
        Size::Tiny => random.below(5) as i32 - 2,
        Size::Small => random.below(19) as i32 - 9,
        Size::Floor => random.below(30_001) as i32,
        Size::Any => (within(random, FARTHEST) - i64::from(FARTHEST)) as i32,
        Size::Extreme => {
            let away = random.pick(&[0, 0, 1, 2, FARTHEST / 2, FARTHEST - 1, FARTHEST, FARTHEST]);
            away * random.pick(&[-1, 1])
        }
    }
}

pub fn corner(random: &mut Random, size: Size) -> Corner {
    (coordinate(random, size), coordinate(random, size))
}

/// So many values that each differs from the next one, and the last from the first.
fn ring<T: Copy + PartialEq>(count: usize, mut draw: impl FnMut() -> T) -> Vec<T> {
    let mut values: Vec<T> = Vec::with_capacity(count);
    while values.len() < count {
        let value = draw();
        let closes = values.len() + 1 == count && values.first() == Some(&value);
        if values.last() != Some(&value) && !closes {
            values.push(value);
        }
    }
    values
}

/// An outline of about so many corners, 3 or more, that isn't refused.
pub fn outline(random: &mut Random, size: Size, shape: Shape, count: usize) -> Vec<Corner> {
    match shape {
        Shape::Any => ring(count, || corner(random, size)),
        Shape::Walls => {
            let half = (count / 2).max(2);
            let xs = ring(half, || coordinate(random, size));
            let ys = ring(half, || coordinate(random, size));
            let pair = |k: usize| [(xs[k], ys[k]), (xs[(k + 1) % half], ys[k])];
            (0..half).flat_map(pair).collect()
        }
        Shape::Flat => {
            let along = random.below(3);
            let level = coordinate(random, size);
            let place = |at: i32| [(at, level), (level, at), (at, at)][along];
            let places = ring(count, || coordinate(random, size));
            places.into_iter().map(place).collect()
        }
        Shape::Laps => {
            let laps = 2 + random.below(2);
            let lap = outline(random, size, Shape::Any, (count / laps).max(3));
            lap.repeat(if lap.len() * laps <= 64 { laps } else { 1 })
        }
    }
}

/// Mostly a few corners, and often about as many as there may be; 3 to 64.
pub fn count(random: &mut Random) -> usize {
    match random.below(8) {
        0 => 3 + random.below(62),
        1 => random.pick(&[63, 64, 64, 64]),
        _ => 3 + random.below(8),
    }
}

/// Moves a corner along the side before it, so that the side has a whole-numbered point between its ends, if that
/// makes no equal neighbours. The answer is that point, or a corner.
pub fn with_a_point_on_a_side(random: &mut Random, corners: &mut [Corner]) -> Corner {
    let start = random.below(corners.len());
    let end = (start + 1) % corners.len();
    let after = corners[(start + 2) % corners.len()];
    let from = corners[start];
    let parts = 2 + random.below(4) as i64;
    let at = |part: i64| {
        let go = |from: i32, to: i32| {
            let (from, to) = (i64::from(from), i64::from(to));
            (from + (to - from) / parts * part) as i32
        };
        (go(from.0, corners[end].0), go(from.1, corners[end].1))
    };
    let (moved, point) = (at(parts), at(1 + random.below(parts as usize - 1) as i64));
    if moved == from || moved == after {
        return from;
    }
    corners[end] = moved;
    point
}

/// The point moved by one step or not at all, within the range.
pub fn beside(random: &mut Random, (x, y): Corner) -> Corner {
    let mut step = |at: i32| (at + random.pick(&[-1, 0, 1])).clamp(-FARTHEST, FARTHEST);
    (step(x), step(y))
}

/// Points of all kinds: anywhere; on a corner, level with one, above or below one; on a side; beside these; between
/// two corners.
pub fn points(
    random: &mut Random,
    size: Size,
    corners: &[Corner],
    on_a_side: Corner,
) -> Vec<Corner> {
    let (x, y) = random.pick(corners);
    let (other_x, other_y) = random.pick(corners);
    let middle = |one: i32, other: i32| ((i64::from(one) + i64::from(other)) / 2) as i32;
    vec![
        corner(random, size),
        (x, y),
        beside(random, (x, y)),
        (coordinate(random, size), y),
        (x, coordinate(random, size)),
        (other_x, y),
        on_a_side,
        beside(random, on_a_side),
        (middle(x, other_x), middle(y, other_y)),
    ]
}

/// Two numbers a corner, as the call takes them.
pub fn numbers(corners: &[Corner]) -> Vec<i32> {
    corners.iter().flat_map(|(x, y)| [*x, *y]).collect()
}

/// The corner list started at another corner.
pub fn started_elsewhere(random: &mut Random, corners: &[Corner]) -> Vec<Corner> {
    let mut corners = corners.to_vec();
    if !corners.is_empty() {
        let start = random.below(corners.len());
        corners.rotate_left(start);
    }
    corners
}

pub fn reversed(corners: &[Corner]) -> Vec<Corner> {
    corners.iter().rev().copied().collect()
}

/// Outline and point moved together, up to the limits.
pub fn moved(random: &mut Random, corners: &[Corner], point: Corner) -> (Vec<Corner>, Corner) {
    let all = || corners.iter().chain([&point]);
    let dx = way(random, all().map(|(x, _)| *x));
    let dy = way(random, all().map(|(_, y)| *y));
    let go = |(x, y): &Corner| ((i64::from(*x) + dx) as i32, (i64::from(*y) + dy) as i32);
    (corners.iter().map(go).collect(), go(&point))
}

/// How far all these may go: now and then right up to a limit.
fn way(random: &mut Random, all: impl Iterator<Item = i32> + Clone) -> i64 {
    let farthest = i64::from(FARTHEST);
    let least = -farthest - all.clone().map(i64::from).min().expect("a point at least");
    let most = farthest - all.map(i64::from).max().expect("a point at least");
    match random.below(8) {
        0 => least,
        1 => most,
        _ => least + random.below((most - least + 1) as usize) as i64,
    }
}
