//! Document 01's rules for plan records, request R-11's for both versions of them, and what each call on ends, records,
//! reports, outlines, texts and floors must answer. The rules for stars stand in rule_star.rs, those for converting a
//! record in rule_convert.rs, those for reports in rule_report.rs, those for outlines in rule_outline.rs, those for
//! shapes' texts in rule_wkt.rs, those for floors in rule_floor.rs.

use crate::ours::plans::{PlanCall, PlanOp};
use crate::ours::shape_room::ShapeRoom;
use crate::rule::{self, BAD_CODE, refusal};
use crate::rule_convert;
use crate::rule_floor;
use crate::rule_outline;
use crate::rule_region;
use crate::rule_report;
use crate::rule_star::{
    self, Collapsed, LABEL_BYTES, Label, Position, TOO_MANY_ENDS, WRONG_LENGTH, collapsed,
    old_collapsed, pour_label, pour_node,
};
use crate::rule_traced;
use crate::rule_wkt;

pub const TOO_FEW_BYTES: u32 = refusal(1);
pub const BAD_VERSION: u32 = refusal(2);
pub const BAD_KIND: u32 = refusal(3);

/// The numbers that each function can give: a run that doesn't meet all of them has looked at too little.
pub const REACHABLE: [(PlanOp, &[u32]); 16] = [
    (PlanOp::Bundle, &[4, 5, 6, 7, 8]),
    (PlanOp::Star, &[4, 5, 6, 7, 8, 9, 12]),
    (PlanOp::Record, &[1, 2, 3, 4, 5, 6, 7, 8, 9]),
    (PlanOp::ReadReport, &[1, 2, 4, 11, 14]),
    (PlanOp::WriteReport, &[12]),
    (PlanOp::WriteShortReport, &[12]),
    (PlanOp::ConvertReport, &[1, 2, 4, 11, 12, 14]),
    (PlanOp::PointInOutline, &[16, 17, 18]),
    (PlanOp::ReadWkt, &[16, 17, 19, 22]),
    (PlanOp::WriteWkt, &[12, 16, 17]),
    (PlanOp::Floor, &[1, 2, 3, 4, 5, 6, 7, 8, 9]),
    (PlanOp::Pieces, &[1, 2, 3, 4, 5, 6, 7, 8, 9]),
    (PlanOp::ConvertRecord, &[1, 2, 3, 4, 5, 6, 7, 8, 9, 12]),
    (PlanOp::RegionName, &[12]),
    (PlanOp::TracedRecord, &[1, 2, 3, 4, 5, 6, 7, 8, 9, 15]),
    (PlanOp::TracedFloor, &[1, 2, 3, 4, 5, 6, 7, 8, 9, 15]),
];

/// What the two versions of a record differ in. "Plan record version 2 has a two-byte count, up to 600 ends, length 8 +
/// 15n. Version 1 keeps its one byte and its 32. .. Kind 2 differs only in the version byte."
pub struct Form {
    pub version: u8,
    pub most_ends: usize,
    pub count_bytes: usize,
}

pub const FORMS: [Form; 2] = [
    Form {
        version: 1,
        most_ends: 32,
        count_bytes: 1,
    },
    Form {
        version: 2,
        most_ends: 600,
        count_bytes: 2,
    },
];

impl Form {
    /// "2 now means neither 1 nor 2"
    pub fn of(version: u8) -> Result<&'static Form, u32> {
        let form = FORMS.iter().find(|form| form.version == version);
        form.ok_or(BAD_VERSION)
    }

    /// The place of the first end in a node's record, by the length field, version and kind, four positions and the
    /// count.
    pub fn first_end(&self) -> usize {
        2 + 2 + 4 + self.count_bytes
    }
}

/// What a call must answer, and every byte that it was lent, afterwards.
#[derive(Clone, Debug, PartialEq, Eq)]
pub struct PlanOutcome {
    pub word: u32,
    pub out: Vec<u8>,
    pub bytes: Vec<u8>,
}

pub fn outcome(call: &PlanCall) -> PlanOutcome {
    outcome_by(call, collapsed)
}

/// The same before request R-6: only the last bundle in order decides whether a geometry is collapsed.
pub fn old_outcome(call: &PlanCall) -> PlanOutcome {
    outcome_by(call, old_collapsed)
}

fn outcome_by(call: &PlanCall, collapsed: Collapsed) -> PlanOutcome {
    match call.op {
        PlanOp::Bundle => written(call, bundle(&call.bytes)),
        PlanOp::Star => written(call, star(call, collapsed)),
        PlanOp::Record => used(call, record_by(&call.cells(), &call.bytes, collapsed)),
        PlanOp::ReadReport => used(call, rule_report::read(&call.bytes)),
        PlanOp::WriteReport => put(call, &rule_report::long(&call.cells())),
        PlanOp::WriteShortReport => put(call, &rule_report::short(&call.cells())),
        PlanOp::ConvertReport => written(call, convert(call)),
        PlanOp::PointInOutline => same(call, rule_outline::word(&call.numbers(), call.point())),
        PlanOp::ReadWkt => read_wkt(call),
        PlanOp::WriteWkt => match rule_wkt::text_of(call.a, &call.numbers()) {
            Ok(text) => put(call, text.as_bytes()),
            Err(word) => same(call, word),
        },
        PlanOp::Floor | PlanOp::OneByOne => rule_floor::whole(call),
        PlanOp::Pieces => rule_floor::in_pieces(call),
        PlanOp::ConvertRecord => written(call, convert_record(call)),
        PlanOp::RegionName => match rule_region::NAMES.get(call.a as usize) {
            Some(name) => put(call, name.as_bytes()),
            None => same(call, rule::NO_SUCH_ROW),
        },
        PlanOp::TracedRecord | PlanOp::TracedFloor | PlanOp::TracedTranspose => {
            rule_traced::outcome(call)
        }
    }
}

/// "A refusal returns the matrix given (.. bundles and stars: none, and no label), bytes used 0, and no byte of a
/// buffer differs." A point in an outline writes nothing at all.
fn same(call: &PlanCall, word: u32) -> PlanOutcome {
    PlanOutcome {
        word,
        out: call.out.clone(),
        bytes: call.bytes.clone(),
    }
}

/// A word and what is written out.
fn written(call: &PlanCall, result: Result<(u32, Vec<u8>), u32>) -> PlanOutcome {
    match result {
        Ok((word, out)) => PlanOutcome {
            word,
            out,
            bytes: call.bytes.clone(),
        },
        Err(word) => same(call, word),
    }
}

/// The bytes used and the cells.
fn used(call: &PlanCall, result: Result<(u32, [u8; 9]), u32>) -> PlanOutcome {
    written(call, result.map(|(used, cells)| (used, cells.to_vec())))
}

/// "A bundle call joins all its ends, directions not compared."
fn bundle(bytes: &[u8]) -> Result<(u32, Vec<u8>), u32> {
    let ends = rule_star::ends(bytes)?;
    Ok((0, rule_star::joined(&ends).to_bytes().to_vec()))
}

/// In a record's order: 4, 5, the area positions' 6, each end in turn, 9; last 12. The labels stand in the front of the
/// buffer.
fn star(call: &PlanCall, collapsed: Collapsed) -> Result<(u32, Vec<u8>), u32> {
    rule_star::whole_ends(&call.bytes)?;
    let area = |code: u32| rule_star::position(u8::try_from(code).unwrap_or(u8::MAX));
    let areas = [area(call.a)?, area(call.b)?];
    let labels = rule_star::star(&rule_star::ends(&call.bytes)?, areas, collapsed)?;
    let all: Vec<u8> = labels.iter().flat_map(|label| label.to_bytes()).collect();
    let (_, out) = rule_report::written(&call.out, &all, 0)?;
    Ok((labels.len() as u32, out))
}

/// The bytes that a length field promises, after it: "fewer bytes than the length field needs or promises".
pub fn promised(bytes: &[u8]) -> Result<&[u8], u32> {
    let [high, low, rest @ ..] = bytes else {
        return Err(TOO_FEW_BYTES);
    };
    let length = usize::from(*high) * 256 + usize::from(*low);
    rest.get(..length).ok_or(TOO_FEW_BYTES)
}

/// The new matrix of a record, or its refusal.
pub fn record(cells: &[u8; 9], bytes: &[u8]) -> Result<(u32, [u8; 9]), u32> {
    record_by(cells, bytes, collapsed)
}

/// "Record order: 1; length below 2 is 4; 2; 3; length below 7 (kind 1) or not 9 (kind 2) is 4; .."
fn record_by(cells: &[u8; 9], bytes: &[u8], collapsed: Collapsed) -> Result<(u32, [u8; 9]), u32> {
    let promised = promised(bytes)?;
    let [version, kind, body @ ..] = promised else {
        return Err(WRONG_LENGTH);
    };
    let form = Form::of(*version)?;
    let mut cells = rule::read(cells);
    match kind {
        1 => pour_node_record(&mut cells, form, body, collapsed)?,
        2 => pour_edge_record(&mut cells, body)?,
        _ => return Err(BAD_KIND),
    }
    Ok((2 + promised.len() as u32, cells))
}

/// ".. length below 7 (kind 1) is 4; 5; length not 7 + 15n is 4; node and area positions 6; each end in turn ..; last
/// 9." Request R-11: "5 means above the version's own limit; kind 1 below length 8 in version 2 is 4."
fn pour_node_record(
    cells: &mut [u8; 9],
    form: &Form,
    body: &[u8],
    collapsed: Collapsed,
) -> Result<(), u32> {
    let [node_a, node_b, area_a, area_b, rest @ ..] = body else {
        return Err(WRONG_LENGTH);
    };
    let parted = rest.split_at_checked(form.count_bytes);
    let (count, bytes) = parted.ok_or(WRONG_LENGTH)?;
    let count = number(count);
    if count > form.most_ends {
        return Err(TOO_MANY_ENDS);
    }
    if bytes.len() != 15 * count {
        return Err(WRONG_LENGTH);
    }
    let nodes = [node_position(*node_a)?, node_position(*node_b)?];
    let areas = [rule_star::position(*area_a)?, rule_star::position(*area_b)?];
    let labels = rule_star::star(&rule_star::ends(bytes)?, areas, collapsed)?;
    pour_node(cells, nodes);
    for label in &labels {
        pour_label(cells, label);
    }
    Ok(())
}

/// "Big-endian."
pub fn number(bytes: &[u8]) -> usize {
    let more = |number: usize, byte: &u8| 256 * number + usize::from(*byte);
    bytes.iter().fold(0, more)
}

/// "node position A, B (1 to 3)"
fn node_position(code: u8) -> Result<Option<Position>, u32> {
    match rule_star::position(code)? {
        None => Err(BAD_CODE),
        some => Ok(some),
    }
}

/// "Kind 2, isolated edge: one label, poured as it is. Length 9."
fn pour_edge_record(cells: &mut [u8; 9], body: &[u8]) -> Result<(), u32> {
    let bytes: &[u8; LABEL_BYTES] = body.try_into().map_err(|_| WRONG_LENGTH)?;
    pour_label(cells, &Label::from_bytes(bytes)?);
    Ok(())
}

/// A report or a shape's text written into the buffer.
fn put(call: &PlanCall, report: &[u8]) -> PlanOutcome {
    match rule_report::written(&call.bytes, report, call.offset) {
        Ok((word, bytes)) => PlanOutcome {
            word,
            out: call.out.clone(),
            bytes,
        },
        Err(word) => same(call, word),
    }
}

/// Refused it writes too: the place.
fn read_wkt(call: &PlanCall) -> PlanOutcome {
    let mut room = ShapeRoom::from_le_bytes(&call.out);
    let word = rule_wkt::read_into(&call.bytes, &mut room.answer, &mut room.xy);
    PlanOutcome {
        word,
        out: room.to_le_bytes(),
        bytes: call.bytes.clone(),
    }
}

/// "Converting takes either version and writes from an offset: those, then 12."
fn convert(call: &PlanCall) -> Result<(u32, Vec<u8>), u32> {
    let report = rule_report::converted(&call.bytes)?;
    rule_report::written(&call.out, &report, call.offset)
}

/// "Converting takes either version and writes from an offset: back above 32 is 5, then no room is 12."
fn convert_record(call: &PlanCall) -> Result<(u32, Vec<u8>), u32> {
    let record = rule_convert::converted(&call.bytes)?;
    rule_report::written(&call.out, &record, call.offset)
}

#[cfg(test)]
mod tests {
    use super::*;
    use crate::rule_star::BAD_LABEL;

    /// A node with these positions for both geometries and for both areas, and these ends.
    fn node(position: u8, ends: &[[u8; 15]]) -> Vec<u8> {
        let mut bytes = vec![0, 7 + 15 * ends.len() as u8, 1, 1];
        bytes.extend([position; 4]);
        bytes.push(ends.len() as u8);
        bytes.extend(ends.concat());
        bytes
    }

    fn end(dx: i8, dy: i8, label: [u8; 7]) -> [u8; 15] {
        let mut bytes = [0; 15];
        bytes[..4].copy_from_slice(&i32::from(dx).to_be_bytes());
        bytes[4..8].copy_from_slice(&i32::from(dy).to_be_bytes());
        bytes[8..].copy_from_slice(&label);
        bytes
    }

    #[test]
    fn p1_by_the_rule() {
        let ends = [
            end(2, 0, [1, 0, 0, 0, 2, 1, 3]),
            end(0, 2, [1, 2, 1, 3, 0, 0, 0]),
            end(-2, 0, [1, 0, 0, 0, 2, 3, 1]),
            end(0, -2, [1, 2, 3, 1, 0, 0, 0]),
        ];
        let start = [0, 0, 0, 0, 0, 0, 0, 0, 3];
        let (used, cells) = record(&start, &node(2, &ends)).expect("P1 is good");
        assert_eq!(used, 69);
        assert_eq!(&rule::text(&cells), b"212101212");
    }

    #[test]
    fn refusals_stand_in_the_records_order() {
        let word = |bytes: &[u8]| record(&[0; 9], bytes).expect_err("refused");
        assert_eq!(word(&[0]), TOO_FEW_BYTES);
        assert_eq!(word(&[0, 1, 9]), WRONG_LENGTH);
        assert_eq!(word(&[0, 2, 9, 9]), BAD_VERSION);
        assert_eq!(word(&[0, 2, 1, 9]), BAD_KIND);
        assert_eq!(word(&[0, 2, 1, 1]), WRONG_LENGTH);
        assert_eq!(word(&[0, 7, 1, 1, 9, 9, 9, 9, 33]), TOO_MANY_ENDS);
        assert_eq!(word(&[0, 7, 1, 1, 9, 9, 9, 9, 1]), WRONG_LENGTH);
        assert_eq!(word(&[0, 7, 1, 1, 0, 9, 9, 9, 0]), BAD_CODE);
        assert_eq!(word(&[0, 9, 1, 2, 0, 1, 1, 0, 0, 0, 4]), BAD_CODE);
        assert_eq!(word(&[0, 9, 1, 2, 0, 1, 1, 0, 0, 0, 3]), BAD_LABEL);
    }

    #[test]
    fn refusals_of_version_2() {
        let word = |bytes: &[u8]| record(&[0; 9], bytes).expect_err("refused");
        assert_eq!(word(&[0, 2, 3, 9]), BAD_VERSION);
        assert_eq!(word(&[0, 2, 0, 9]), BAD_VERSION);
        assert_eq!(word(&[0, 2, 2, 9]), BAD_KIND);
        // seven bytes are enough for version 1 alone
        assert_eq!(word(&[0, 7, 2, 1, 1, 1, 0, 0, 0]), WRONG_LENGTH);
        let empty = [0, 8, 2, 1, 1, 1, 0, 0, 0, 0];
        assert_eq!(
            record(&[0; 9], &empty),
            Ok((10, [1, 0, 0, 0, 0, 0, 0, 0, 0]))
        );
        assert_eq!(word(&[0, 8, 2, 1, 9, 9, 9, 9, 2, 89]), TOO_MANY_ENDS);
        assert_eq!(word(&[0, 8, 2, 1, 9, 9, 9, 9, 2, 88]), WRONG_LENGTH);
        assert_eq!(word(&[0, 8, 2, 1, 9, 9, 9, 9, 0, 33]), WRONG_LENGTH);
        assert_eq!(word(&[0, 8, 2, 1, 9, 9, 9, 9, 1, 0]), WRONG_LENGTH);
        assert_eq!(word(&[0, 8, 2, 1, 0, 9, 9, 9, 0, 0]), BAD_CODE);
        assert_eq!(word(&[0, 9, 2, 2, 0, 1, 1, 0, 0, 0, 3]), BAD_LABEL);
    }

    #[test]
    fn labels_in_the_front_and_no_room_for_them() {
        let ends = [
            end(1, 0, [0, 1, 0, 0, 2, 0, 0]),
            end(0, 1, [0, 2, 0, 0, 1, 0, 0]),
        ];
        let asked = |room| outcome(&PlanCall::star_in(room, ends.concat(), 0, 0));
        let due = asked(16);
        let labels = [0, 1, 0, 0, 2, 0, 0, 0, 2, 0, 0, 1, 0, 0, 9, 9];
        assert_eq!((due.word, &due.out[..]), (2, &labels[..]));
        assert_eq!(asked(14).word, 2);
        let due = asked(13);
        assert_eq!((due.word, due.out), (rule_report::NO_ROOM, vec![9; 13]));
    }
}
