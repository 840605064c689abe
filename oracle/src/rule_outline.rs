//! Request R-8's rule for a point against one closed outline, written down plainly: each side is asked on its own, and
//! products have 128 bits.

use crate::rule::refusal;
use crate::rule_star::Position::{self, Inside, OnBoundary, Outside};
use std::ops::RangeInclusive;

pub const WRONG_COUNT: u32 = refusal(16);
pub const OUT_OF_RANGE: u32 = refusal(17);
pub const EQUAL_NEIGHBOURS: u32 = refusal(18);

/// "one closed outline of 3 to 64 corners, whole millimetres within ±1,000,000,000"
pub const COUNTS: RangeInclusive<usize> = 3..=64;
pub const FARTHEST: i32 = 1_000_000_000;

/// A corner or the point: x and y.
pub type Corner = (i32, i32);

type Side = (Corner, Corner);

/// The position's code, or a refusal's word.
pub fn word(numbers: &[i32], point: Corner) -> u32 {
    match position(numbers, point) {
        Ok(position) => position as u32,
        Err(refusal) => refusal,
    }
}

/// "16 for a wrong corner count, 17 for a coordinate out of range, the point's too, 18 for two equal neighbouring
/// corners, last and first included"; "On a side or a corner is OnBoundary; else Inside if the half line towards
/// positive x crosses an odd number of sides"
fn position(numbers: &[i32], point: Corner) -> Result<Position, u32> {
    let corners = corners(numbers)?;
    let mut coordinates = numbers.iter().chain([&point.0, &point.1]);
    if !coordinates.all(|x| (-FARTHEST..=FARTHEST).contains(x)) {
        return Err(OUT_OF_RANGE);
    }
    let sides = sides(&corners);
    if sides.iter().any(|(start, end)| start == end) {
        return Err(EQUAL_NEIGHBOURS);
    }
    if sides.iter().any(|side| is_on(*side, point)) {
        return Ok(OnBoundary);
    }
    let crossed = sides.iter().filter(|side| is_crossed(**side, point));
    Ok(match crossed.count() % 2 {
        1 => Inside,
        _ => Outside,
    })
}

/// Two numbers a corner; one that is left over is half a corner.
fn corners(numbers: &[i32]) -> Result<Vec<Corner>, u32> {
    if numbers.len() % 2 == 1 || !COUNTS.contains(&(numbers.len() / 2)) {
        return Err(WRONG_COUNT);
    }
    let pairs = numbers.chunks_exact(2);
    Ok(pairs.map(|pair| (pair[0], pair[1])).collect())
}

/// Each corner and the next one; after the last comes the first.
fn sides(corners: &[Corner]) -> Vec<Side> {
    let next = corners.iter().cycle().skip(1);
    corners.iter().copied().zip(next.copied()).collect()
}

fn wide((x, y): Corner) -> (i128, i128) {
    (i128::from(x), i128::from(y))
}

/// Whether the point lies on the line through both ends, and between them on each axis.
fn is_on((start, end): Side, point: Corner) -> bool {
    let (ax, ay) = wide(start);
    let (bx, by) = wide(end);
    let (x, y) = wide(point);
    let in_line = (bx - ax) * (y - ay) == (by - ay) * (x - ax);
    let between = |one: i128, other: i128, at: i128| one.min(other) <= at && at <= one.max(other);
    in_line && between(ax, bx, x) && between(ay, by, y)
}

/// "a side counting when exactly one of its ends lies strictly above the point's y", and met at a greater x than the
/// point's. From the lower end the side goes `run` to the right while it rises `rise`: at the point's y it has
/// x = low x + run (y - low y) / rise.
fn is_crossed((start, end): Side, point: Corner) -> bool {
    let (low, high) = match (start.1 > point.1, end.1 > point.1) {
        (false, true) => (wide(start), wide(end)),
        (true, false) => (wide(end), wide(start)),
        _ => return false,
    };
    let (x, y) = wide(point);
    let (run, rise) = (high.0 - low.0, high.1 - low.1);
    low.0 * rise + run * (y - low.1) > x * rise
}

#[cfg(test)]
mod tests {
    use super::*;

    const INSIDE: u32 = Inside as u32;
    const ON_BOUNDARY: u32 = OnBoundary as u32;
    const OUTSIDE: u32 = Outside as u32;
    const SQUARE: [i32; 8] = [0, 0, 4, 0, 4, 4, 0, 4];
    const L: i32 = FARTHEST;

    #[test]
    fn a_square_point_by_point() {
        for x in -1..=5 {
            for y in -1..=5 {
                let due = match (x.min(4 - x), y.min(4 - y)) {
                    (-1, _) | (_, -1) => OUTSIDE,
                    (0, _) | (_, 0) => ON_BOUNDARY,
                    _ => INSIDE,
                };
                assert_eq!(word(&SQUARE, (x, y)), due, "{x}, {y}");
            }
        }
    }

    #[test]
    fn corners_in_the_middle_of_a_side() {
        // the right side has corners at 1 and 3, the half line from (1, 1) and (1, 3) meets them
        let square = [0, 0, 4, 0, 4, 1, 4, 3, 4, 4, 0, 4];
        for y in 1..4 {
            assert_eq!(word(&square, (1, y)), INSIDE);
            assert_eq!(word(&square, (4, y)), ON_BOUNDARY);
            assert_eq!(word(&square, (-1, y)), OUTSIDE);
            assert_eq!(word(&square, (5, y)), OUTSIDE);
        }
        // all corners in one line: nothing is inside
        let line = [0, 0, 2, 2, 4, 4];
        assert_eq!(word(&line, (3, 3)), ON_BOUNDARY);
        assert_eq!(word(&line, (5, 5)), OUTSIDE);
        assert_eq!(word(&line, (1, 2)), OUTSIDE);
    }

    #[test]
    fn a_bow_tie() {
        let tie = [0, 0, 4, 4, 4, 0, 0, 4];
        assert_eq!(word(&tie, (1, 2)), INSIDE);
        assert_eq!(word(&tie, (3, 2)), INSIDE);
        assert_eq!(word(&tie, (2, 2)), ON_BOUNDARY);
        assert_eq!(word(&tie, (2, 1)), OUTSIDE);
        assert_eq!(word(&tie, (2, 3)), OUTSIDE);
    }

    #[test]
    fn a_spike_and_two_laps() {
        // out to (8, 2) and back along itself
        let spike = [0, 0, 4, 0, 4, 2, 8, 2, 4, 2, 4, 4, 0, 4];
        assert_eq!(word(&spike, (1, 2)), INSIDE);
        assert_eq!(word(&spike, (6, 2)), ON_BOUNDARY);
        assert_eq!(word(&spike, (6, 1)), OUTSIDE);
        assert_eq!(word(&spike, (9, 2)), OUTSIDE);
        let laps = [SQUARE, SQUARE].concat();
        assert_eq!(word(&laps, (1, 1)), OUTSIDE);
        assert_eq!(word(&laps, (0, 1)), ON_BOUNDARY);
    }

    #[test]
    fn up_to_the_limits() {
        let all = [-L, -L, L, -L, L, L, -L, L];
        assert_eq!(word(&all, (0, 0)), INSIDE);
        assert_eq!(word(&all, (L - 1, 1 - L)), INSIDE);
        assert_eq!(word(&all, (L, L)), ON_BOUNDARY);
        assert_eq!(word(&all, (-L, 5)), ON_BOUNDARY);
        // (L - 1, L - 2) lies below the first side, and (L - 2, L - 1) left of it, by 1 / 2L
        let low = [-L, -L, L, L - 1, L, L];
        assert_eq!(word(&low, (0, 0)), ON_BOUNDARY);
        assert_eq!(word(&low, (L - 1, L - 1)), ON_BOUNDARY);
        assert_eq!(word(&low, (L - 1, L - 2)), OUTSIDE);
        let left = [-L, -L, L - 1, L, L, L];
        assert_eq!(word(&left, (L - 2, L - 1)), OUTSIDE);
        // and here it lies inside by as much
        let under = [-L, 1 - L, L, L, L, -L];
        assert_eq!(word(&under, (L - 1, L - 1)), INSIDE);
        assert_eq!(word(&under, (L - 1, L)), OUTSIDE);
    }

    #[test]
    fn refusals_stand_in_the_request_s_order() {
        let good = [0, 0, 1, 0, 0, 1];
        let far = [L + 1, 0, 1, 0, 1, 0];
        assert_eq!(word(&good, (9, 9)), OUTSIDE);
        assert_eq!(word(&far[..5], (0, 0)), WRONG_COUNT);
        assert_eq!(word(&far[..4], (0, 0)), WRONG_COUNT);
        assert_eq!(word(&[], (i32::MIN, 0)), WRONG_COUNT);
        let most: Vec<i32> = (0..130).map(|k| k * k % 97).collect();
        assert_eq!(word(&most, (L + 1, 0)), WRONG_COUNT);
        assert_eq!(word(&most[..129], (0, 0)), WRONG_COUNT);
        assert_eq!(word(&most[..128], (0, -1)), OUTSIDE);
        assert_eq!(word(&far, (0, 0)), OUT_OF_RANGE);
        assert_eq!(word(&good, (0, -L - 1)), OUT_OF_RANGE);
        assert_eq!(word(&[0, 0, 1, 0, 1, 0], (i32::MIN, 0)), OUT_OF_RANGE);
        assert_eq!(word(&[0, 0, 1, 0, 1, 0], (0, 0)), EQUAL_NEIGHBOURS);
        assert_eq!(word(&[1, 0, 0, 0, 1, 0], (0, 0)), EQUAL_NEIGHBOURS);
    }

    /// So the half lines towards negative x, up and down would say the same.
    #[test]
    fn a_quarter_turn_alters_nothing() {
        for list in 0..9_i32.pow(3) {
            let corners = [list % 9, list / 9 % 9, list / 81].map(|k| (k % 3, k / 3));
            let turned = corners.map(|(x, y)| [-y, x]).concat();
            let numbers = corners.map(|(x, y)| [x, y]).concat();
            for point in 0..25 {
                let (x, y) = (point % 5 - 1, point / 5 - 1);
                assert_eq!(word(&numbers, (x, y)), word(&turned, (-y, x)));
            }
        }
    }
}
