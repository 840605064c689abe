//! Document 01's rules for labels, bundles, the direction order, stars and pouring, request R-6's for the collapse and
//! R-11's for the number of ends, written down plainly and apart from the crate.
//!
//! Nothing here is clever: a bundle is looked through once for each question, a star is sorted and cut into bundles.

use crate::rule::{BAD_CODE, refusal};
use std::cmp::Ordering;

pub const WRONG_LENGTH: u32 = refusal(4);
pub const TOO_MANY_ENDS: u32 = refusal(5);
pub const BAD_LABEL: u32 = refusal(7);
pub const BAD_DIRECTION: u32 = refusal(8);
pub const SINGLE_SIDE: u32 = refusal(9);

/// Request R-11: "Star and bundle calls take 600."
pub const MOST_ENDS: usize = 600;
pub const END_BYTES: usize = 15;
pub const LABEL_BYTES: usize = 7;
pub const LARGEST_PART: i64 = 2_000_000_000;

/// The three positions, by their codes.
#[derive(Clone, Copy, Debug, PartialEq, Eq)]
pub enum Position {
    Inside = 1,
    OnBoundary = 2,
    Outside = 3,
}
use Position::{Inside, OnBoundary, Outside};

/// What a label says of one geometry. A line label has no sides.
#[derive(Clone, Copy, Debug, Default, PartialEq, Eq)]
pub struct Half {
    pub on: Option<Position>,
    pub left: Option<Position>,
    pub right: Option<Position>,
}

#[derive(Clone, Copy, Debug, PartialEq, Eq)]
pub struct Label {
    pub area: bool,
    pub halves: [Half; 2],
}

#[derive(Clone, Copy, Debug, PartialEq, Eq)]
pub struct End {
    pub dx: i32,
    pub dy: i32,
    pub label: Label,
}

/// "Position codes: 0 none, 1 I, 2 B, 3 E."
pub fn position(code: u8) -> Result<Option<Position>, u32> {
    match code {
        0 => Ok(None),
        1 => Ok(Some(Inside)),
        2 => Ok(Some(OnBoundary)),
        3 => Ok(Some(Outside)),
        _ => Err(BAD_CODE),
    }
}

pub fn code(position: Option<Position>) -> u8 {
    position.map_or(0, |position| position as u8)
}

impl Label {
    /// "label kind 7, codes 6, sides 7"
    pub fn from_bytes(bytes: &[u8; LABEL_BYTES]) -> Result<Self, u32> {
        if bytes[0] > 1 {
            return Err(BAD_LABEL);
        }
        let half = |at: usize| -> Result<Half, u32> {
            Ok(Half {
                on: position(bytes[at])?,
                left: position(bytes[at + 1])?,
                right: position(bytes[at + 2])?,
            })
        };
        let label = Label {
            area: bytes[0] == 1,
            halves: [half(1)?, half(4)?],
        };
        let has_side = |half: &Half| half.left.is_some() || half.right.is_some();
        if !label.area && label.halves.iter().any(has_side) {
            return Err(BAD_LABEL);
        }
        Ok(label)
    }

    pub fn to_bytes(self) -> [u8; LABEL_BYTES] {
        let [a, b] = self.halves;
        let codes = [a.on, a.left, a.right, b.on, b.left, b.right].map(code);
        let mut bytes = [u8::from(self.area); LABEL_BYTES];
        bytes[1..].copy_from_slice(&codes);
        bytes
    }
}

impl End {
    /// "each end in turn 8, label kind 7, codes 6, sides 7"
    fn from_bytes(bytes: &[u8; END_BYTES]) -> Result<Self, u32> {
        let part = |at: usize| i32::from_be_bytes(bytes[at..at + 4].try_into().expect("four"));
        let (dx, dy) = (part(0), part(4));
        let beyond = |part: i32| i64::from(part).abs() > LARGEST_PART;
        if dx == 0 && dy == 0 || beyond(dx) || beyond(dy) {
            return Err(BAD_DIRECTION);
        }
        let label = Label::from_bytes(bytes[8..].try_into().expect("seven"))?;
        Ok(End { dx, dy, label })
    }
}

/// "check count .. as a record does": whole ends, 600 of them at most.
pub fn whole_ends(bytes: &[u8]) -> Result<&[[u8; END_BYTES]], u32> {
    let (whole, rest) = bytes.as_chunks::<END_BYTES>();
    if !rest.is_empty() {
        return Err(WRONG_LENGTH);
    }
    if whole.len() > MOST_ENDS {
        return Err(TOO_MANY_ENDS);
    }
    Ok(whole)
}

/// Ends that follow each other, all of them good, or the first refusal.
pub fn ends(bytes: &[u8]) -> Result<Vec<End>, u32> {
    whole_ends(bytes)?.iter().map(End::from_bytes).collect()
}

/// "It is an area bundle if any end's label is."
pub fn joined(ends: &[End]) -> Label {
    let area = ends.iter().any(|end| end.label.area);
    let half = |geometry: usize| {
        let side = |side: fn(&Half) -> Option<Position>| {
            let sides = ends.iter().filter(|end| end.label.area);
            joined_side(sides.map(|end| side(&end.label.halves[geometry])))
        };
        Half {
            on: joined_on(ends.iter().map(|end| end.label.halves[geometry].on)),
            left: side(|half| half.left),
            right: side(|half| half.right),
        }
    };
    let halves = [half(0), half(1)];
    Label { area, halves }
}

/// "with k ends on the boundary, k odd gives OnBoundary, k even and positive gives Inside; k = 0 gives Inside if any
/// end is Inside, else none"
fn joined_on(ons: impl Iterator<Item = Option<Position>> + Clone) -> Option<Position> {
    let k = ons.clone().filter(|on| *on == Some(OnBoundary)).count();
    let any_inside = || ons.clone().any(|on| on == Some(Inside));
    match k {
        0 => any_inside().then_some(Inside),
        _ if k % 2 == 1 => Some(OnBoundary),
        _ => Some(Inside),
    }
}

/// "from ends with area labels: Inside if any is Inside, else Outside if any is Outside, else none"
fn joined_side(sides: impl Iterator<Item = Option<Position>> + Clone) -> Option<Position> {
    let any = |sought| sides.clone().any(|side| side == Some(sought));
    [Inside, Outside].into_iter().find(|sought| any(*sought))
}

/// "Quadrants: 0 for dx ≥ 0, dy ≥ 0; 1 for dx < 0, dy ≥ 0; 2 for both < 0; 3 for dx ≥ 0, dy < 0."
pub fn quadrant(end: &End) -> u8 {
    if end.dy >= 0 {
        u8::from(end.dx < 0)
    } else {
        2 + u8::from(end.dx >= 0)
    }
}

/// "In one quadrant the sign of dx1·dy2 − dy1·dx2 decides: positive means the second comes later, zero means the
/// same bundle."
pub fn order(one: &End, other: &End) -> Ordering {
    let [x1, y1, x2, y2] = [one.dx, one.dy, other.dx, other.dy].map(i128::from);
    match quadrant(one).cmp(&quadrant(other)) {
        Ordering::Equal => 0.cmp(&(x1 * y2 - y1 * x2)),
        quadrants => quadrants,
    }
}

/// The ends sorted into bundles, each joined, in order.
pub fn bundles(ends: &[End]) -> Vec<Label> {
    let mut sorted = ends.to_vec();
    sorted.sort_by(order);
    sorted
        .chunk_by(|one, other| order(one, other).is_eq())
        .map(joined)
        .collect()
}

/// "for one geometry, some area bundle has a left and some has a right but no left"
fn single_side(bundles: &[Label], geometry: usize) -> bool {
    let areas = || bundles.iter().filter(|label| label.area);
    let halves = || areas().map(|label| label.halves[geometry]);
    halves().any(|half| half.left.is_some())
        && halves().any(|half| half.right.is_some() && half.left.is_none())
}

/// "Start is the left of the last area bundle in order that has one. If none has, this step does nothing."
pub fn start(bundles: &[Label], geometry: usize) -> Option<Position> {
    let areas = bundles.iter().rev().filter(|label| label.area);
    areas
        .map(|label| label.halves[geometry].left)
        .find_map(|left| left)
}

/// "Walk in order with current = start. An on of none becomes current. For an area bundle whose right is known,
/// current becomes its left; a missing left is refusal 9. If right is none, both sides become current."
///
/// A single side has been refused before, so that a left is there.
fn walk(bundles: &mut [Label], geometry: usize) {
    let mut current = start(bundles, geometry);
    if current.is_none() {
        return;
    }
    for label in bundles {
        let half = &mut label.halves[geometry];
        half.on = half.on.or(current);
        if !label.area {
            continue;
        }
        if half.right.is_some() {
            current = half.left;
        } else {
            half.left = current;
            half.right = current;
        }
    }
}

/// Whether a geometry is collapsed, by the bundles as the walks leave them.
pub type Collapsed = fn(&[Label], usize) -> bool;

/// Request R-6: "collapsed if any line bundle of the star has on OnBoundary for that geometry"
pub fn collapsed(bundles: &[Label], geometry: usize) -> bool {
    bundles.iter().any(|label| collapses(label, geometry))
}

/// Document 01, before that request, and the crate: "geometry g is collapsed if the last bundle in order is a line bundle
/// whose on for g is OnBoundary". It is here to know the crate's answers by: see listed.rs.
pub fn old_collapsed(bundles: &[Label], geometry: usize) -> bool {
    bundles.last().is_some_and(|last| collapses(last, geometry))
}

/// Whether a label is a line label whose on is OnBoundary.
fn collapses(label: &Label, geometry: usize) -> bool {
    !label.area && label.halves[geometry].on == Some(OnBoundary)
}

/// "Every position still none becomes Outside if g is collapsed, else the node's area position for g, or Outside if g
/// is no area."
fn fill(bundles: &mut [Label], geometry: usize, collapsed: bool, area_position: Option<Position>) {
    let position = match area_position {
        Some(position) if !collapsed => position,
        _ => Outside,
    };
    for label in bundles {
        let half = &mut label.halves[geometry];
        half.on = half.on.or(Some(position));
        if label.area {
            half.left = half.left.or(Some(position));
            half.right = half.right.or(Some(position));
        }
    }
}

/// The bundles in order after both walks, with the nones that these leave, or refusal 9.
fn walked(ends: &[End]) -> Result<Vec<Label>, u32> {
    let mut bundles = bundles(ends);
    for geometry in 0..2 {
        if single_side(&bundles, geometry) {
            return Err(SINGLE_SIDE);
        }
        walk(&mut bundles, geometry);
    }
    Ok(bundles)
}

/// The completed labels of a star, in order, or refusal 9.
pub fn star(
    ends: &[End],
    area_positions: [Option<Position>; 2],
    collapsed: Collapsed,
) -> Result<Vec<Label>, u32> {
    let mut bundles = walked(ends)?;
    let both = [0, 1].map(|geometry| collapsed(&bundles, geometry));
    for (geometry, area_position) in area_positions.into_iter().enumerate() {
        fill(&mut bundles, geometry, both[geometry], area_position);
    }
    Ok(bundles)
}

/// `set_at_least`: "With a none position nothing changes." A dimension is 1, 2, 3 for 0, 1, 2.
fn raise(cells: &mut [u8; 9], a: Option<Position>, b: Option<Position>, dimension: u8) {
    if let (Some(a), Some(b)) = (a, b) {
        let cell = &mut cells[3 * (a as usize - 1) + b as usize - 1];
        *cell = dimension.max(*cell);
    }
}

/// "A node raises (on A, on B) to 0."
pub fn pour_node(cells: &mut [u8; 9], on: [Option<Position>; 2]) {
    raise(cells, on[0], on[1], 1);
}

/// "A label raises (on A, on B) to 1 and, if an area, (left A, left B) and (right A, right B) to 2."
pub fn pour_label(cells: &mut [u8; 9], label: &Label) {
    let [a, b] = label.halves;
    raise(cells, a.on, b.on, 2);
    if label.area {
        raise(cells, a.left, b.left, 3);
        raise(cells, a.right, b.right, 3);
    }
}

#[cfg(test)]
mod tests {
    use super::*;
    use crate::random::Random;

    const START: [u8; 9] = [0, 0, 0, 0, 0, 0, 0, 0, 3];

    /// What an end's label says: its kind, then on, left and right of A and of B.
    fn end(dx: i32, dy: i32, label: [u8; 7]) -> End {
        let label = Label::from_bytes(&label).expect("a good label");
        End { dx, dy, label }
    }

    /// Turned by ninety degrees, against the clock.
    fn turned(ends: &[End]) -> Vec<End> {
        let turn = |end: &End| End {
            dx: -end.dy,
            dy: end.dx,
            ..*end
        };
        ends.iter().map(turn).collect()
    }

    /// The labels in order and the matrix: node and area positions by their codes.
    fn poured(
        ends: &[End],
        node: [u8; 2],
        areas: [u8; 2],
        collapsed: Collapsed,
    ) -> (Vec<[u8; 7]>, String) {
        let codes = |codes: [u8; 2]| codes.map(|code| position(code).expect("a good code"));
        let labels = star(ends, codes(areas), collapsed).expect("no single side");
        let mut cells = START;
        pour_node(&mut cells, codes(node));
        for label in &labels {
            pour_label(&mut cells, label);
        }
        let text = crate::rule::text(&cells).map(char::from).iter().collect();
        (labels.into_iter().map(Label::to_bytes).collect(), text)
    }

    /// docs/DIFFERENCES.md's worked star: an area of A that has shrunk to a line meets a wall of B from within.
    #[test]
    fn the_worked_star() {
        let wall_up = [1, 0, 0, 0, 2, 1, 3];
        let shrunk = [0, 2, 0, 0, 0, 0, 0];
        let wall_down = [1, 0, 0, 0, 2, 3, 1];
        let ends = [
            end(0, 2, wall_up),
            end(-4, 0, shrunk),
            end(0, -2, wall_down),
        ];
        let asked = |ends: &[End], rule| poured(ends, [2, 2], [2, 2], rule);

        let collapsed_labels = [
            [1, 3, 3, 3, 2, 1, 3],
            [0, 2, 0, 0, 1, 0, 0],
            [1, 3, 3, 3, 2, 3, 1],
        ];
        let (labels, matrix) = asked(&ends, collapsed);
        assert_eq!(labels, collapsed_labels);
        assert_eq!(matrix, "FFF10F212");
        let (labels, matrix) = asked(&ends, old_collapsed);
        let others = [
            [1, 2, 2, 2, 2, 1, 3],
            [0, 2, 0, 0, 1, 0, 0],
            [1, 2, 2, 2, 2, 3, 1],
        ];
        assert_eq!(labels, others);
        assert_eq!(matrix, "FFF212FF2");

        // Turned, the shrunk area is the last: both rules agree, and the order starts with the wall that was down.
        let ends = turned(&ends);
        let again = [
            collapsed_labels[2],
            collapsed_labels[0],
            collapsed_labels[1],
        ];
        for rule in [collapsed as Collapsed, old_collapsed] {
            let (labels, matrix) = asked(&ends, rule);
            assert_eq!(labels, again);
            assert_eq!(matrix, "FFF10F212");
        }
    }

    /// crates/worked's star: two lines in B, of the second of which A says nothing.
    #[test]
    fn the_proved_star() {
        let ends = [
            end(2, 0, [0, 2, 0, 0, 1, 0, 0]),
            end(0, -2, [0, 0, 0, 0, 1, 0, 0]),
        ];
        let asked = |ends: &[End], rule| poured(ends, [2, 1], [1, 0], rule).1;
        assert_eq!(asked(&ends, collapsed), "FFF1FF1F2");
        assert_eq!(asked(&ends, old_collapsed), "1FF1FFFF2");
        assert_eq!(asked(&turned(&ends), collapsed), "FFF1FF1F2");
        assert_eq!(asked(&turned(&ends), old_collapsed), "FFF1FF1F2");
    }

    /// docs/LOOSE.md: a left without a right is overwritten by the walk, and which one is the start still goes by the
    /// order.
    #[test]
    fn a_left_without_a_right_still_turns() {
        let ends = [
            end(1, 0, [1, 0, 1, 0, 2, 0, 0]),
            end(0, -1, [1, 0, 3, 0, 2, 0, 0]),
        ];
        let asked = |ends: &[End]| poured(ends, [2, 1], [0, 1], collapsed).1;
        assert_eq!(asked(&ends), "FFF0FF212");
        assert_eq!(asked(&turned(&ends)), "21F0FFFF2");
    }

    fn any_label(random: &mut Random) -> [u8; 7] {
        let mut label: [u8; 7] = std::array::from_fn(|_| random.below(4) as u8);
        label[0] = random.below(2) as u8;
        for at in [1, 2, 3, 4, 5, 6] {
            let side = at % 3 != 1;
            if side && label[0] == 0 || random.below(3) == 0 {
                label[at] = 0;
            }
        }
        label
    }

    fn any_ends(random: &mut Random) -> Vec<End> {
        let around = [(2, 0), (1, 1), (0, 3), (-1, 0), (-2, -1), (0, -1)];
        let count = random.below(5);
        let ends = (0..count).map(|_| {
            let (dx, dy) = random.pick(&around);
            end(dx, dy, any_label(random))
        });
        ends.collect()
    }

    /// docs/DIFFERENCES.md, 3, says when the two rules have other labels.
    #[test]
    fn where_the_rules_differ() {
        let random = &mut Random::new(2);
        let mut differ = 0;
        for _ in 0..20_000 {
            let ends = any_ends(random);
            let areas = [0, 1].map(|_| position(random.below(4) as u8).expect("a code"));
            let (Ok(new), Ok(old)) = (
                star(&ends, areas, collapsed),
                star(&ends, areas, old_collapsed),
            ) else {
                continue;
            };
            let bundles = bundles(&ends);
            let told = |geometry: usize| {
                let (last, earlier) = bundles.split_last().expect("a bundle");
                let known = |label: &Label| {
                    let half = label.halves[geometry];
                    let sides = half.left.is_some() && half.right.is_some();
                    half.on.is_some() && (!label.area || sides)
                };
                earlier.iter().any(|label| collapses(label, geometry))
                    && !collapses(last, geometry)
                    && start(&bundles, geometry).is_none()
                    && matches!(areas[geometry], Some(Inside | OnBoundary))
                    && !bundles.iter().all(known)
            };
            let told = !bundles.is_empty() && (told(0) || told(1));
            assert_eq!(new != old, told, "{ends:?}");
            differ += usize::from(told);
        }
        assert!(differ > 100, "{differ} differ");
    }

    /// Where each bundle with a left has a right, turning changes where the order of the labels starts, and no label and no
    /// cell. Stars where the old rule has other labels are among these.
    #[test]
    fn turning_changes_nothing_else() {
        let random = &mut Random::new(6);
        let (mut asked, mut differ) = (0, 0);
        for _ in 0..6_000 {
            let ends = any_ends(random);
            let node = [1 + random.below(3) as u8, 1 + random.below(3) as u8];
            let areas = [random.below(4) as u8, random.below(4) as u8];
            let mut halves = bundles(&ends).into_iter().flat_map(|label| label.halves);
            let left_alone = halves.any(|half| half.left.is_some() && half.right.is_none());
            if left_alone || walked(&ends).is_err() {
                continue;
            }
            asked += 1;
            let (labels, matrix) = poured(&ends, node, areas, collapsed);
            let (old_labels, _) = poured(&ends, node, areas, old_collapsed);
            differ += usize::from(labels != old_labels);
            let mut other = ends;
            for _ in 0..3 {
                other = turned(&other);
                let (mut turned_labels, turned_matrix) = poured(&other, node, areas, collapsed);
                let starts = 0..turned_labels.len().max(1);
                let found = starts.into_iter().any(|_| {
                    let same = turned_labels == labels;
                    let places = turned_labels.len().min(1);
                    turned_labels.rotate_left(places);
                    same
                });
                assert!(found && turned_matrix == matrix);
            }
        }
        assert!(
            asked > 1_000 && differ > 50,
            "{asked} asked, {differ} differ"
        );
    }
}
