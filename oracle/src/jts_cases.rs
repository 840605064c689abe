//! Cases for the comparison with JTS, as lines of text: jts/README.md says what they show.
//!
//! JTS's walk throws where document 01's goes on or refuses. That is written down here, so that its answer to every star
//! is foretold: which exception, or which labels and which matrix. It collapses as request R-6 says, by any line bundle.

use crate::plan_pieces::{ALL_DIRECTIONS, Directions, Labels, count, direction, end, ends};
use crate::random::Random;
use crate::rule;
use crate::rule_star::{
    self, End, Label, Position, collapsed, order, pour_label, pour_node, quadrant,
};
use std::fmt::Write as _;
use std::io::{self, Write};

const SEED: u64 = 1;
const PAIRS: usize = 120_000;
const BUNDLES: usize = 120_000;
const STARS: usize = 150_000;
const POURED: usize = 120_000;

const HEAD: &str = "\
# D dx dy dx dy, the quadrants of both, order (-1 the first comes earlier, 0 the same bundle, 1 later)
# B ends, their joined label
# S area codes, node codes, ends, what JTS makes of them, completed labels, matrix poured into FFFFFFFF2
#   same: as document 01 and request R-6; conflict, left, single: JTS throws, and the rest is -
# P label, matrix before, matrix after; N node codes, matrix before, matrix after
# An end is 15 bytes and a label 7, in hex, as in a plan record; - stands for no bytes.
";

pub fn main() {
    let mut random = Random::new(SEED);
    let mut out = io::BufWriter::new(io::stdout().lock());
    let mut write = |line: String| {
        out.write_all(line.as_bytes())
            .expect("standard output can be written");
    };
    write(HEAD.into());
    for _ in 0..PAIRS {
        write(pair(&mut random));
    }
    for _ in 0..BUNDLES {
        write(bundle(&mut random));
    }
    for number in 0..STARS {
        let ends = if number.is_multiple_of(3) {
            let count = count(&mut random).min(32);
            ends(&mut random, count)
        } else {
            agreeing_ends(&mut random)
        };
        write(star(&mut random, &ends));
    }
    for number in 0..POURED {
        write(poured(&mut random, number));
    }
}

fn hex(bytes: &[u8]) -> String {
    if bytes.is_empty() {
        return "-".into();
    }
    bytes.iter().fold(String::new(), |mut text, byte| {
        write!(text, "{byte:02x}").expect("a string can be written");
        text
    })
}

fn letters(cells: &[u8; 9]) -> String {
    rule::text(cells).map(char::from).iter().collect()
}

fn good(bytes: &[u8]) -> Vec<End> {
    rule_star::ends(bytes).expect("the ends are good")
}

/// Two directions, every second time so close to each other, or to the same line, that a rounded product would fail.
fn pair(random: &mut Random) -> String {
    let kind = random.pick(&ALL_DIRECTIONS);
    let one = direction(random, kind);
    let other = if random.below(2) == 0 {
        close_to(random, one)
    } else {
        let kind = random.pick(&ALL_DIRECTIONS);
        direction(random, kind)
    };
    let line = [0; 7];
    let both = good(&[end(one, &line), end(other, &line)].concat());
    format!(
        "D {} {} {} {} {} {} {}\n",
        one.0,
        one.1,
        other.0,
        other.1,
        quadrant(&both[0]),
        quadrant(&both[1]),
        order(&both[0], &both[1]) as i8
    )
}

/// A multiple, a part, or a neighbour of a direction, perhaps turned about.
fn close_to(random: &mut Random, (dx, dy): (i32, i32)) -> (i32, i32) {
    let scaled = match random.below(3) {
        0 => (dx / 2 * 2, dy / 2 * 2),
        1 => (dx / 3, dy / 3),
        _ => (dx, dy),
    };
    let step = |random: &mut Random| random.below(3) as i64 - 1;
    let sign = random.pick(&[1, 1, -1]);
    let near = |part: i32, step: i64| {
        let largest = rule_star::LARGEST_PART;
        (sign * (i64::from(part) + step)).clamp(-largest, largest) as i32
    };
    let found = (near(scaled.0, step(random)), near(scaled.1, step(random)));
    if found == (0, 0) { (dx, dy) } else { found }
}

fn bundle(random: &mut Random) -> String {
    let most = random.pick(&[3, 8, 32]);
    let count = 1 + random.below(most);
    let ends = ends(random, count);
    let label = rule_star::joined(&good(&ends)).to_bytes();
    format!("B {} {}\n", hex(&ends), hex(&label))
}

/// One direction of a star and its walls: how many ends with an area label, all with this one.
struct Way {
    end: End,
    walls: usize,
}

/// Ends whose sides agree around the node in each geometry, as those of a plan do: between two walls the same position.
fn agreeing_ends(random: &mut Random) -> Vec<u8> {
    let mut ways = ways(random);
    for geometry in 0..2 {
        put_sides(random, &mut ways, geometry);
    }
    let lines = Labels {
        areas: 0,
        nones: 3,
        paired: true,
    };
    let mut parts = Vec::new();
    for Way { end: way, walls } in &ways {
        let wall = end((way.dx, way.dy), &way.label.to_bytes());
        parts.extend(std::iter::repeat_n(wall, *walls));
        if *walls == 0 || random.below(6) == 0 {
            parts.push(end((way.dx, way.dy), &lines.label(random)));
        }
    }
    for place in (1..parts.len()).rev() {
        parts.swap(place, random.below(place + 1));
    }
    parts.concat()
}

/// At most ten different directions, in order: with two walls and a line each there are no more than 30 ends.
fn ways(random: &mut Random) -> Vec<Way> {
    let kind = random.pick(&[Directions::Axes, Directions::Small, Directions::Any]);
    let most = random.pick(&[4, 10]);
    let count = 1 + random.below(most);
    let blank = Label {
        area: true,
        halves: Default::default(),
    };
    let mut ways: Vec<_> = (0..count)
        .map(|_| {
            let (dx, dy) = direction(random, kind);
            Way {
                end: End {
                    dx,
                    dy,
                    label: blank,
                },
                walls: random.pick(&[0, 1, 1, 1, 2]),
            }
        })
        .collect();
    ways.sort_by(|one, other| order(&one.end, &other.end));
    ways.dedup_by(|one, other| order(&one.end, &other.end).is_eq());
    ways
}

/// Some ways bound the geometry: what lies left of one lies right of the next, all around.
fn put_sides(random: &mut Random, ways: &mut [Way], geometry: usize) {
    let side = |random: &mut Random| random.pick(&[Position::Inside, Position::Outside]);
    let share = random.pick(&[0, 2, 5, 9]);
    let first = side(random);
    let mut current = first;
    let mut last = None;
    for (place, way) in ways.iter_mut().enumerate() {
        let half = &mut way.end.label.halves[geometry];
        half.on = random.pick(&[None, Some(Position::Inside), Some(Position::OnBoundary)]);
        if way.walls > 0 && random.below(10) < share {
            half.right = Some(current);
            current = side(random);
            half.left = Some(current);
            last = Some(place);
        }
    }
    if let Some(last) = last {
        ways[last].end.label.halves[geometry].left = Some(first);
    }
}

/// How JTS's walk ends, geometry by geometry: it throws on a known right that isn't current, on a right without a left,
/// and on a left without a right.
fn jts_throws(bundles: &[Label]) -> Option<&'static str> {
    for geometry in 0..2 {
        let Some(mut current) = rule_star::start(bundles, geometry) else {
            continue;
        };
        for label in bundles.iter().filter(|label| label.area) {
            let half = label.halves[geometry];
            match (half.left, half.right) {
                (_, Some(right)) if right != current => return Some("conflict"),
                (None, Some(_)) => return Some("single"),
                (Some(_), None) => return Some("left"),
                (Some(left), Some(_)) => current = left,
                (None, None) => {}
            }
        }
    }
    None
}

fn star(random: &mut Random, bytes: &[u8]) -> String {
    let codes: [u8; 4] = [
        random.below(4) as u8,
        random.below(4) as u8,
        1 + random.below(3) as u8,
        1 + random.below(3) as u8,
    ];
    let ends = good(bytes);
    let [area_a, area_b, node_a, node_b] =
        codes.map(|code| rule_star::position(code).expect("a code of 0 to 3"));
    let [c0, c1, c2, c3] = codes;
    let head = format!("S {c0} {c1} {c2} {c3} {}", hex(bytes));
    if let Some(class) = jts_throws(&rule_star::bundles(&ends)) {
        return format!("{head} {class} - -\n");
    }
    let labels = rule_star::star(&ends, [area_a, area_b], collapsed)
        .expect("no single side: JTS would have thrown");
    let mut cells = [0, 0, 0, 0, 0, 0, 0, 0, 3];
    pour_node(&mut cells, [node_a, node_b]);
    for label in &labels {
        pour_label(&mut cells, label);
    }
    let bytes: Vec<u8> = labels.iter().flat_map(|label| label.to_bytes()).collect();
    format!("{head} same {} {}\n", hex(&bytes), letters(&cells))
}

/// A label, or every sixth time a node, poured into any matrix.
fn poured(random: &mut Random, number: usize) -> String {
    let before = random.cells();
    let mut after = before;
    if number.is_multiple_of(6) {
        let codes = [1 + random.below(3) as u8, 1 + random.below(3) as u8];
        let on = codes.map(|code| rule_star::position(code).expect("a code of 1 to 3"));
        pour_node(&mut after, on);
        let [a, b] = codes;
        return format!("N {a} {b} {} {}\n", letters(&before), letters(&after));
    }
    let labels = Labels {
        areas: 7,
        nones: random.pick(&[0, 2, 6]),
        paired: false,
    };
    let bytes = labels.label(random);
    let label = Label::from_bytes(&bytes).expect("the label is good");
    pour_label(&mut after, &label);
    format!(
        "P {} {} {}\n",
        hex(&bytes),
        letters(&before),
        letters(&after)
    )
}
