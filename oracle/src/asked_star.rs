//! The crate's side of bundles, stars and records: ends put into the crate's own files, and what these make of them.
//!
//! The crate's text: joining, completing, a star's pouring of all its bundles, raising a cell. The shim's, by document
//! 01: the direction order, the parity of boundary counts, pouring one label and a node. Reading bytes is the oracle's.

use crate::Coord;
use crate::asked;
use crate::coordinate_position::CoordPos;
use crate::ours::plans::{PlanCall, PlanOp};
use crate::relate::geomgraph::intersection_matrix::IntersectionMatrix;
use crate::relate::geomgraph::{
    CoordNode, Direction, Edge, EdgeEnd, EdgeEndBundle, EdgeEndBundleStar, GeometryGraph, Label,
    LabeledEdgeEndBundleStar,
};
use crate::rule::BAD_CODE;
use crate::rule_plan::{BAD_KIND, BAD_VERSION, TOO_FEW_BYTES};
use crate::rule_report::NO_ROOM;
use crate::rule_star::{
    BAD_DIRECTION, BAD_LABEL, END_BYTES, LABEL_BYTES, LARGEST_PART, MOST_ENDS, TOO_MANY_ENDS,
    WRONG_LENGTH,
};

const NODE: Coord<f64> = Coord { x: 0.0, y: 0.0 };
const CODES: [Option<CoordPos>; 4] = [
    None,
    Some(CoordPos::Inside),
    Some(CoordPos::OnBoundary),
    Some(CoordPos::Outside),
];
/// The places of a label's six codes.
const SIX: [(usize, Direction); 6] = [
    (0, Direction::On),
    (0, Direction::Left),
    (0, Direction::Right),
    (1, Direction::On),
    (1, Direction::Left),
    (1, Direction::Right),
];

pub type Star = EdgeEndBundleStar<f64>;
pub type LabeledStar = LabeledEdgeEndBundleStar<f64>;

/// What the crate's files make of a call: a panic, or the word and the bytes written out.
#[derive(Clone, Debug, PartialEq, Eq)]
pub enum PlanSaid {
    Panicked,
    Gave { word: u32, out: Vec<u8> },
}

/// What the crate says to a call, or None if it can't be asked that: it has no reports, no floors and no versions, and
/// its `coordinate_position` isn't among the files given. Bytes that this reader refuses don't come to the crate, and the refusal is the answer.
pub fn said(call: &PlanCall) -> Option<PlanSaid> {
    let same = |word| PlanSaid::Gave {
        word,
        out: call.out.clone(),
    };
    let answer = match call.op {
        PlanOp::Bundle => asked::quietly(|| bundle(&call.bytes)),
        PlanOp::Star => asked::quietly(|| star(call)),
        PlanOp::Record => {
            let mut matrix = asked::matrix(&call.cells());
            asked::quietly(|| {
                let used = record(&mut matrix, &call.bytes)?;
                Ok((used, asked::cells(&matrix).to_vec()))
            })
        }
        PlanOp::ReadReport
        | PlanOp::WriteReport
        | PlanOp::WriteShortReport
        | PlanOp::ConvertReport
        | PlanOp::PointInOutline
        | PlanOp::ReadWkt
        | PlanOp::WriteWkt
        | PlanOp::Floor
        | PlanOp::OneByOne
        | PlanOp::Pieces
        | PlanOp::ConvertRecord
        | PlanOp::RegionName
        | PlanOp::TracedRecord
        | PlanOp::TracedFloor
        | PlanOp::TracedTranspose => return None,
    };
    Some(match answer {
        Some(Ok((word, out))) => PlanSaid::Gave { word, out },
        Some(Err(word)) => same(word),
        None => PlanSaid::Panicked,
    })
}

fn bundle(bytes: &[u8]) -> Result<(u32, Vec<u8>), u32> {
    let mut bundle = EdgeEndBundle::new(NODE);
    for_each_end(bytes, |end| bundle.insert(end))?;
    let labeled = bundle.into_labeled();
    Ok((0, label_bytes(labeled.label()).to_vec()))
}

fn star(call: &PlanCall) -> Result<(u32, Vec<u8>), u32> {
    whole_ends(&call.bytes)?;
    let area = |code: u32| code_position(u8::try_from(code).unwrap_or(u8::MAX));
    let (a, b) = (graph(area(call.a)?), graph(area(call.b)?));
    let labels = labels(&star_of(&call.bytes)?.into_labeled(&a, &b));
    let mut out = call.out.clone();
    let front = out.get_mut(..LABEL_BYTES * labels.len());
    front.ok_or(NO_ROOM)?.copy_from_slice(labels.as_flattened());
    Ok((labels.len() as u32, out))
}

/// A star of these ends, not yet completed.
pub fn star_of(bytes: &[u8]) -> Result<Star, u32> {
    let mut star = Star::new();
    for_each_end(bytes, |end| star.insert(end))?;
    Ok(star)
}

/// Ends read beforehand.
pub fn ready_ends(bytes: &[u8]) -> Result<Vec<EdgeEnd<f64>>, u32> {
    let mut ends = Vec::new();
    for_each_end(bytes, |end| ends.push(end))?;
    Ok(ends)
}

/// A star of ends read beforehand, completed.
#[inline]
pub fn completed(ends: &[EdgeEnd<f64>], graphs: &[GeometryGraph<'_, f64>; 2]) -> LabeledStar {
    let mut star = Star::new();
    for end in ends {
        star.insert(end.clone());
    }
    star.into_labeled(&graphs[0], &graphs[1])
}

/// A node on both boundaries and its star, completed and poured: as a record's node, but from ends that are read already.
pub fn poured(
    matrix: &mut IntersectionMatrix,
    ends: &[EdgeEnd<f64>],
    graphs: &[GeometryGraph<'_, f64>; 2],
) {
    let star = completed(ends, graphs);
    CoordNode::at(NODE, [CoordPos::OnBoundary; 2]).update_intersection_matrix(matrix);
    star.update_intersection_matrix(matrix);
}

/// A geometry in whose area the node lies so, or one that is no area.
pub fn graph(area_position: Option<CoordPos>) -> GeometryGraph<'static, f64> {
    GeometryGraph::with_area_position(area_position)
}

pub fn code_position(code: u8) -> Result<Option<CoordPos>, u32> {
    CODES.get(usize::from(code)).copied().ok_or(BAD_CODE)
}

fn whole_ends(bytes: &[u8]) -> Result<&[[u8; END_BYTES]], u32> {
    let (ends, rest) = bytes.as_chunks::<END_BYTES>();
    if !rest.is_empty() {
        return Err(WRONG_LENGTH);
    }
    if ends.len() > MOST_ENDS {
        return Err(TOO_MANY_ENDS);
    }
    Ok(ends)
}

fn for_each_end(bytes: &[u8], mut take: impl FnMut(EdgeEnd<f64>)) -> Result<(), u32> {
    let mut ends = whole_ends(bytes)?.iter();
    ends.try_for_each(|bytes| end(bytes).map(&mut take))
}

fn end(bytes: &[u8; END_BYTES]) -> Result<EdgeEnd<f64>, u32> {
    let [x0, x1, x2, x3, y0, y1, y2, y3, ..] = *bytes;
    let dx = i32::from_be_bytes([x0, x1, x2, x3]);
    let dy = i32::from_be_bytes([y0, y1, y2, y3]);
    let within = |part: i32| i64::from(part.unsigned_abs()) <= LARGEST_PART;
    if (dx, dy) == (0, 0) || !within(dx) || !within(dy) {
        return Err(BAD_DIRECTION);
    }
    let (_, label_bytes) = bytes.split_last_chunk().expect("seven of fifteen");
    Ok(EdgeEnd::new(NODE, dx, dy, label(label_bytes)?))
}

pub fn label(bytes: &[u8; LABEL_BYTES]) -> Result<Label, u32> {
    let [kind, codes @ ..] = bytes;
    let mut label = match kind {
        0 => Label::empty_line_or_point(),
        1 => Label::empty_area(),
        _ => return Err(BAD_LABEL),
    };
    if codes.iter().any(|code| *code > 3) {
        return Err(BAD_CODE);
    }
    if *kind == 0 && [codes[1], codes[2], codes[4], codes[5]] != [0; 4] {
        return Err(BAD_LABEL);
    }
    for ((geometry, direction), code) in SIX.into_iter().zip(codes) {
        if let Some(position) = CODES[usize::from(*code)] {
            label.set_position(geometry, direction, position);
        }
    }
    Ok(label)
}

fn label_bytes(label: &Label) -> [u8; LABEL_BYTES] {
    let mut bytes = [u8::from(label.is_area()); LABEL_BYTES];
    for (byte, (geometry, direction)) in bytes[1..].iter_mut().zip(SIX) {
        let has = label.is_area() || direction == Direction::On;
        let position = has.then(|| label.position(geometry, direction)).flatten();
        *byte = match position {
            None => 0,
            Some(CoordPos::Inside) => 1,
            Some(CoordPos::OnBoundary) => 2,
            Some(CoordPos::Outside) => 3,
        };
    }
    bytes
}

/// A completed star's labels, in order. The crate lets nobody at them, but prints them in its Debug text.
pub fn labels(star: &LabeledStar) -> Vec<[u8; LABEL_BYTES]> {
    let text = format!("{star:?}");
    text.split("LabeledEdgeEndBundle { label: Label { A: ")
        .skip(1)
        .map(printed_label)
        .collect()
}

/// A label from its text on: `ibe, B: i_e }, ..`, left, on, right, or `b, B: _ }, ..` of a line label.
fn printed_label(text: &str) -> [u8; LABEL_BYTES] {
    let (label, _) = text.split_once(" }").expect("a label ends");
    let (a, b) = label.split_once(", B: ").expect("a label has two halves");
    let mut bytes = [0; LABEL_BYTES];
    for (half, at) in [(a, 1), (b, 4)] {
        let code = |letter: u8| match letter {
            b'_' => 0,
            b'i' => 1,
            b'b' => 2,
            b'e' => 3,
            _ => unreachable!("the crate prints no other letter"),
        };
        match *half.as_bytes() {
            [on] => bytes[at] = code(on),
            [left, on, right] => {
                bytes[0] = 1;
                bytes[at..at + 3].copy_from_slice(&[on, left, right].map(code));
            }
            _ => unreachable!("one or three letters"),
        }
    }
    bytes
}

/// One plan record of either version read and poured through the crate's files, which have no cap: the bytes used, or a
/// refusal's word. Refusal 9 is the crate's panic.
#[inline]
pub fn record(matrix: &mut IntersectionMatrix, bytes: &[u8]) -> Result<u32, u32> {
    let (length, rest) = bytes.split_first_chunk::<2>().ok_or(TOO_FEW_BYTES)?;
    let length = usize::from(u16::from_be_bytes(*length));
    match rest.get(..length).ok_or(TOO_FEW_BYTES)? {
        [1, 1, body @ ..] => {
            let (head, ends) = body.split_first_chunk().ok_or(WRONG_LENGTH)?;
            let [node_a, node_b, area_a, area_b, count] = *head;
            let positions = [node_a, node_b, area_a, area_b];
            node_record(matrix, positions, count.into(), 32, ends)?;
        }
        [2, 1, body @ ..] => {
            let (head, ends) = body.split_first_chunk().ok_or(WRONG_LENGTH)?;
            let [node_a, node_b, area_a, area_b, high, low] = *head;
            let positions = [node_a, node_b, area_a, area_b];
            node_record(
                matrix,
                positions,
                u16::from_be_bytes([high, low]),
                600,
                ends,
            )?;
        }
        [1 | 2, 2, body @ ..] => {
            let label = label(body.try_into().map_err(|_| WRONG_LENGTH)?)?;
            Edge::<f64>::update_intersection_matrix(&label, matrix);
        }
        [1 | 2, _, ..] => return Err(BAD_KIND),
        [_, _, ..] => return Err(BAD_VERSION),
        _ => return Err(WRONG_LENGTH),
    }
    Ok(2 + length as u32)
}

/// A node with its positions in both geometries and in both areas, and so many ends.
#[inline]
fn node_record(
    matrix: &mut IntersectionMatrix,
    [node_a, node_b, area_a, area_b]: [u8; 4],
    count: u16,
    most: u16,
    ends: &[u8],
) -> Result<(), u32> {
    if count > most {
        return Err(TOO_MANY_ENDS);
    }
    if ends.len() != usize::from(count) * END_BYTES {
        return Err(WRONG_LENGTH);
    }
    let node = |code: u8| code_position(code)?.ok_or(BAD_CODE);
    let node = CoordNode::at(NODE, [node(node_a)?, node(node_b)?]);
    let a = graph(code_position(area_a)?);
    let b = graph(code_position(area_b)?);
    let star = star_of(ends)?.into_labeled(&a, &b);
    node.update_intersection_matrix(matrix);
    star.update_intersection_matrix(matrix);
    Ok(())
}
