//! Directions that a rough number of the direction can't tell apart, or only just: neighbouring fractions, parts at
//! their limits, and what lies at a step of the library's own number (crates/order/specs/Key.antt) and beside it.

use crate::random::Random;
use crate::rule_star::LARGEST_PART;

pub type Direction = (i32, i32);

/// Parts at the limits, those that are nearly 0, and one of which each step of the number is a whole share.
const PARTS: [i32; 7] = [
    0,
    1,
    2,
    STEPS as i32,
    1_000_000_000,
    LARGEST_PART as i32 - 1,
    LARGEST_PART as i32,
];

/// The number rises by 1 so many times between two axes, evenly by the share that one part has of both.
const STEPS: i64 = 1_048_574;

/// Turned by so many quarters against the clock.
pub fn turned_by(quarters: usize, (x, y): Direction) -> Direction {
    match quarters % 4 {
        0 => (x, y),
        1 => (-y, x),
        2 => (-x, -y),
        _ => (y, -x),
    }
}

/// Directions of both parts −20 to 20, 0,0 among them.
pub fn grid() -> Vec<Direction> {
    let parts = || -20..=20;
    parts().flat_map(|x| parts().map(move |y| (x, y))).collect()
}

/// Every direction of two such parts with either sign, 0,0 among them: the axes, those that are nearly on one, and
/// those about halfway.
pub fn limits() -> Vec<Direction> {
    let parts = PARTS.iter().flat_map(|part| match part {
        0 => vec![0],
        part => vec![-part, *part],
    });
    let parts: Vec<i32> = parts.collect();
    let both = |x: &i32| parts.iter().map(|y| (*x, *y)).collect::<Vec<_>>();
    parts.iter().flat_map(both).collect()
}

/// A good one, as it is in the first quadrant or on its axes.
fn direction((x, y): (i64, i64)) -> Option<Direction> {
    let admitted = |part: i64| (0..=LARGEST_PART).contains(&part);
    (admitted(x) && admitted(y) && (x, y) != (0, 0)).then_some((x as i32, y as i32))
}

/// A direction of the first quadrant, made longer by a whole number: 1, the largest that is admitted, or any.
fn multiple(random: &mut Random, (x, y): (i64, i64)) -> (i64, i64) {
    let most = LARGEST_PART / x.max(y);
    let any = 1 + random.below(most as usize) as i64;
    let times = random.pick(&[1, most, any]);
    (x * times, y * times)
}

/// c and d with ad − bc = 1 and 0 ≤ c < a, of a and b above 0 that have no common factor.
fn neighbour(a: i64, b: i64) -> (i64, i64) {
    // b · c ≡ −1 by a: Euclid's steps on a and b, with what each remainder has of b
    let (mut low, mut high) = ((a, 0), (b % a, 1));
    while high.0 != 0 {
        let times = low.0 / high.0;
        (low, high) = (high, (low.0 - times * high.0, low.1 - times * high.1));
    }
    let c = (-low.1).rem_euclid(a);
    (c, (1 + b * c) / a)
}

fn common_factor(a: i64, b: i64) -> i64 {
    if b == 0 { a } else { common_factor(b, a % b) }
}

/// Five directions of the first quadrant: a fraction, a neighbour to each side (ad − bc = 1 and −1), and one more to
/// each side, as near as the largest parts allow. Each is made longer if there is room.
pub fn neighbours(random: &mut Random) -> Vec<Direction> {
    let bound = random.pick(&[9, 1000, 1 << 20, 1_000_000_000, LARGEST_PART]) as usize;
    let [a, b] = [0, 1].map(|_| 1 + random.below(bound) as i64);
    let factor = common_factor(a, b);
    let (a, b) = (a / factor, b / factor);
    let (c, d) = neighbour(a, b);
    let nearest = |(x, y): (i64, i64)| {
        let times = ((LARGEST_PART - x) / a).min((LARGEST_PART - y) / b);
        (x + times * a, y + times * b)
    };
    let (later, sooner) = ((c, d), (a - c, b - d));
    let all = [(a, b), later, sooner, nearest(later), nearest(sooner)];
    let all = all.map(|found| multiple(random, found));
    all.into_iter().filter_map(direction).collect()
}

/// Directions of the first quadrant at one step of the number, at several lengths, and those one beside them.
pub fn at_a_step(random: &mut Random) -> Vec<Direction> {
    let any = 1 + random.below(STEPS as usize - 1) as i64;
    let half = STEPS / 2;
    let few = [1, 2, half - 1, half, half + 1, STEPS - 2, STEPS - 1];
    let known = random.pick(&few);
    let step = random.pick(&[known, any]);
    let exact = (STEPS - step, step);
    let (x, y) = multiple(random, exact);
    let other = multiple(random, exact);
    let beside = [(1, 0), (-1, 0), (0, 1), (0, -1), (1, -1), (-1, 1)];
    let beside = beside.map(|(dx, dy)| (x + dx, y + dy));
    let all = [(x, y), other].into_iter().chain(beside);
    all.filter_map(direction).collect()
}

#[cfg(test)]
mod tests {
    use super::*;

    #[test]
    fn neighbours_are_neighbours() {
        for a in 1..60 {
            for b in (1..60).filter(|b| common_factor(a, *b) == 1) {
                let (c, d) = neighbour(a, b);
                assert_eq!(a * d - b * c, 1, "{a} {b}: {c} {d}");
                assert!((0..a).contains(&c) && (0..=b).contains(&d));
            }
        }
        let random = &mut Random::new(2);
        for _ in 0..2_000 {
            assert_eq!(neighbours(random).len(), 5);
        }
    }

    /// The library's number, of a direction in the first quadrant and not on its axes.
    fn number((x, y): Direction) -> i64 {
        let [x, y] = [x, y].map(i64::from);
        1 + y * STEPS / (x + y)
    }

    /// Of the pairs that are two directions: how many have one number, and how many have numbers one beside the other.
    fn counted(draw: fn(&mut Random) -> Vec<Direction>) -> [usize; 2] {
        let random = &mut Random::new(2);
        let mut counts = [0; 2];
        for _ in 0..1_000 {
            let mut all = draw(random);
            all.retain(|(x, y)| *x != 0 && *y != 0);
            for one in &all {
                for other in &all {
                    let turn = i64::from(one.0) * i64::from(other.1)
                        - i64::from(one.1) * i64::from(other.0);
                    let apart = number(*other) - number(*one);
                    assert!(turn <= 0 || apart >= 0, "{one:?} {other:?}");
                    counts[0] += usize::from(turn > 0 && apart == 0);
                    counts[1] += usize::from(turn > 0 && apart == 1);
                }
            }
        }
        counts
    }

    #[test]
    fn hard_pairs_are_drawn() {
        for draw in [neighbours, at_a_step] {
            let [same, beside] = counted(draw);
            assert!(same > 1_000 && beside > 50, "{same} {beside}");
        }
    }

    #[test]
    fn so_many_directions() {
        assert_eq!(grid().len(), 41 * 41);
        assert_eq!(limits().len(), 13 * 13);
    }
}
