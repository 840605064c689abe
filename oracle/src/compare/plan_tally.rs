//! Judges one call on ends, a record, a report, an outline, a text or a floor, and counts it.

use super::tally::{Size, Tally};
use crate::asked_star::{self, PlanSaid};
use crate::listed::{self, Listed};
use crate::ours::floor_room::{self, FloorRoom};
use crate::ours::plans::{PlanCall, PlanOp, PlanReply};
use crate::ours::shape_room::ShapeRoom;
use crate::ours::traced_room::TracedRoom;
use crate::rule;
use crate::rule_plan::{self, Form, PlanOutcome, REACHABLE};
use crate::rule_star::{END_BYTES, LABEL_BYTES, SINGLE_SIDE};
use std::collections::BTreeMap;

#[derive(Default)]
pub struct Numbers {
    /// How often each function had to give each number.
    refused: BTreeMap<(PlanOp, u32), u64>,
    /// How often a point had to be inside an outline, on it and outside.
    positions: [u64; 3],
    /// How often a text had to be read as a point, as a line and as a polygon, and how often each had to be written.
    read: [u64; 3],
    written: [u64; 3],
    floors: Floors,
}

/// Floors in one call.
#[derive(Default)]
struct Floors {
    /// How often one had to be accepted, refused behind accepted records, and refused at its first.
    met: [u64; 3],
    most_records: u64,
    /// Pieces pushed, of the same floors and others.
    pieces: u64,
}

impl Floors {
    fn note(&mut self, call: &PlanCall, due: &PlanOutcome) {
        if call.op == PlanOp::Pieces {
            self.pieces += floor_room::counts(&call.out).len() as u64;
            return;
        }
        let [_, records] = FloorRoom::from_le_bytes(&due.out).answer;
        self.most_records = self.most_records.max(records);
        let kind = match (rule::refuses(due.word), records) {
            (false, _) => 0,
            (true, 1..) => 1,
            (true, 0) => 2,
        };
        self.met[kind] += 1;
    }

    fn report(&self) {
        let [good, behind, first] = self.met;
        print!("floors: {good} accepted, {behind} refused behind accepted records, ");
        println!("{first} refused at their first");
        let (most, pieces) = (self.most_records, self.pieces);
        println!("floors: at most {most} records accepted in one; {pieces} pieces pushed");
    }
}

impl Numbers {
    /// Counts what a call had to answer.
    fn note(&mut self, call: &PlanCall, due: &PlanOutcome) {
        if matches!(call.op, PlanOp::Floor | PlanOp::Pieces) {
            self.floors.note(call, due);
        }
        if let Some(number) = rule::number(due.word) {
            *self.refused.entry((call.op, number)).or_default() += 1;
            return;
        }
        match call.op {
            PlanOp::PointInOutline => self.positions[due.word as usize - 1] += 1,
            PlanOp::ReadWkt => {
                let kind = ShapeRoom::from_le_bytes(&due.out).answer[0];
                self.read[kind as usize - 1] += 1;
            }
            PlanOp::WriteWkt => self.written[call.a as usize - 1] += 1,
            _ => {}
        }
    }

    /// Prints them, and answers how many of them were never met.
    pub fn report(&self) -> u64 {
        let mut unmet = 0;
        for (op, numbers) in REACHABLE {
            let times = |number: &u32| *self.refused.get(&(op, *number)).unwrap_or(&0);
            let counts: Vec<_> = numbers
                .iter()
                .map(|number| format!("{number}: {}", times(number)))
                .collect();
            println!("{}, refusals by number: {}", op.name(), counts.join(", "));
            unmet += numbers.iter().filter(|number| times(number) == 0).count() as u64;
        }
        let [inside, on, outside] = self.positions;
        println!("points in outlines: {inside} inside, {on} on the boundary, {outside} outside");
        for (done, [points, lines, polygons]) in [("read", self.read), ("written", self.written)] {
            println!("texts {done}: {points} points, {lines} lines, {polygons} polygons");
        }
        self.floors.report();
        let all = [self.positions, self.read, self.written, self.floors.met].concat();
        unmet += all.iter().filter(|count| **count == 0).count() as u64;
        if unmet != 0 {
            println!("{unmet} of the answers above were never met: the calls made are too few");
        }
        unmet
    }
}

impl Tally {
    /// Counts one call; prints it if two sides differ in a way that isn't listed.
    pub fn take_plan(&mut self, kind: &str, call: &PlanCall, reply: &PlanReply) {
        let due = rule_plan::outcome(call);
        let said = asked_star::said(call);
        let listed = said
            .as_ref()
            .and_then(|said| listed::plan_difference(call, &due, said));
        if let (Some(listed), Some(said)) = (listed, &said) {
            self.note_listed(listed, size(call), || describe_listed(call, &due, said));
        }
        let faults = faults(&due, said.as_ref(), reply, listed);
        if !faults.is_empty() {
            println!(
                "DIFFERENCE ({kind}) {}: {}; {}",
                faults.join(", "),
                describe(call),
                describe_answers(&due, said.as_ref(), reply)
            );
        }
        self.numbers.note(call, &due);
        let number = rule::number(due.word);
        // A refusal of the reader that stands before the crate says nothing of the crate.
        let asked = said.is_some() && number.is_none_or(|number| number == 9);
        let count = self.count();
        count.calls += 1;
        count.refused += u64::from(number.is_some());
        count.not_asked += u64::from(!asked);
        count.listed += u64::from(listed.is_some());
        count.unlisted += u64::from(!faults.is_empty());
    }
}

/// Whether the crate's answer is this word with these bytes; its panic is refusal 9.
fn agrees(said: &PlanSaid, word: u32, out: &[u8]) -> bool {
    match said {
        PlanSaid::Panicked => word == SINGLE_SIDE,
        PlanSaid::Gave { word: w, out: o } => *w == word && o == out,
    }
}

fn faults(
    due: &PlanOutcome,
    said: Option<&PlanSaid>,
    reply: &PlanReply,
    listed: Option<Listed>,
) -> Vec<&'static str> {
    let mut faults = Vec::new();
    let mut fault = |holds: bool, name| {
        if holds {
            faults.push(name);
        }
    };
    // What a listed difference is, the crate's whole answer was held to already.
    if let (Some(said), None) = (said, listed) {
        let agree = agrees(said, due.word, &due.out);
        fault(!agree, "the crate's answer isn't document 01's");
        let agree = agrees(said, reply.word, &reply.out);
        fault(!agree, "our answer isn't the crate's");
    }
    fault(reply.word != due.word, "our word isn't document 01's");
    fault(reply.out != due.out, "our answer isn't document 01's");
    fault(
        reply.bytes != due.bytes,
        "the bytes given aren't left as document 01 says",
    );
    fault(reply.stray, "a byte changed that the call may not write");
    faults
}

/// Few ends first, then few known positions, low cells and short directions. Of a record's bytes before its ends only the
/// area positions are looked at: those of the node settle one cell.
fn size(call: &PlanCall) -> Size {
    let (areas, ends, cells) = match call.op {
        PlanOp::Record => (call.bytes[6..8].to_vec(), ends_of(call), &call.out[..]),
        _ => (vec![call.a as u8, call.b as u8], &call.bytes[..], &[][..]),
    };
    let (ends, _) = ends.as_chunks::<END_BYTES>();
    let count = ends.len();
    let codes = ends.iter().flat_map(|end| &end[8..]).chain(&areas);
    let known = codes.filter(|code| **code != 0).count();
    let cells = cells.iter().map(|cell| usize::from(*cell)).sum();
    let part = |bytes: &[u8]| i32::from_be_bytes(bytes.try_into().expect("four bytes"));
    let length = |end: &[u8; END_BYTES]| {
        part(&end[..4]).unsigned_abs() as usize + part(&end[4..8]).unsigned_abs() as usize
    };
    let lengths = ends.iter().map(length).sum();
    let bytes = [&call.bytes[..], &areas].concat();
    ([count, known, cells, lengths], bytes)
}

/// The ends of an accepted node's record.
fn ends_of(call: &PlanCall) -> &[u8] {
    let form = Form::of(call.bytes[2]).expect("an accepted record");
    let first = form.first_end();
    let count = rule_plan::number(&call.bytes[8..first]);
    &call.bytes[first..first + count * END_BYTES]
}

/// A star's labels to the last one, a record's matrix.
fn describe_listed(call: &PlanCall, due: &PlanOutcome, said: &PlanSaid) -> String {
    let PlanSaid::Gave { out, .. } = said else {
        unreachable!("the crate has answered")
    };
    let shown = |out: &[u8]| match call.op {
        PlanOp::Star => hex(&out[..LABEL_BYTES * due.word as usize]),
        _ => {
            let cells = out.try_into().expect("nine cells");
            rule::text(cells).map(char::from).iter().collect()
        }
    };
    let (theirs, due) = (shown(out), shown(&due.out));
    format!(
        "{}; the crate: {theirs}; by the rule: {due}",
        describe(call)
    )
}

fn hex(bytes: &[u8]) -> String {
    bytes.iter().map(|byte| format!("{byte:02x}")).collect()
}

fn describe(call: &PlanCall) -> String {
    let given = match call.op {
        PlanOp::Bundle => String::new(),
        PlanOp::Star => {
            let (a, b, room) = (call.a, call.b, call.out.len());
            format!(" areas {a}, {b}, room {room}")
        }
        PlanOp::Record | PlanOp::ReadReport => format!(" on cells {}", hex(&call.out)),
        PlanOp::WriteReport | PlanOp::WriteShortReport => {
            format!(" of cells {} at {}", hex(&call.out), call.offset)
        }
        PlanOp::ConvertReport | PlanOp::ConvertRecord => {
            format!(" into {} at {}", hex(&call.out), call.offset)
        }
        PlanOp::PointInOutline => {
            let (point, numbers) = (call.point(), call.numbers());
            return format!("{} of {point:?} in {numbers:?}", call.op.name());
        }
        PlanOp::ReadWkt => {
            let (text, room) = (call.bytes.escape_ascii(), hex(&call.out));
            return format!("{} of \"{text}\" into {room}", call.op.name());
        }
        PlanOp::WriteWkt => format!(" of {}, {:?} at {}", call.a, call.numbers(), call.offset),
        PlanOp::Floor | PlanOp::OneByOne | PlanOp::Pieces => {
            let cells = FloorRoom::from_le_bytes(&call.out).cells;
            let counts = floor_room::counts(&call.out);
            format!(" on cells {}, pieces {counts:?}", hex(&cells))
        }
        PlanOp::RegionName => format!(" of {} at {}", call.a, call.offset),
        PlanOp::TracedRecord | PlanOp::TracedFloor | PlanOp::TracedTranspose => {
            let TracedRoom { cells, numbers, .. } = TracedRoom::from_le_bytes(&call.out);
            format!(" on cells {}, numbers {numbers:?}", hex(&cells))
        }
    };
    format!("{}{given}, bytes {}", call.op.name(), hex(&call.bytes))
}

fn describe_answers(due: &PlanOutcome, said: Option<&PlanSaid>, reply: &PlanReply) -> String {
    let said = match said {
        Some(PlanSaid::Gave { word, out }) => format!("{word:#x} {}", hex(out)),
        Some(PlanSaid::Panicked) => "panics".into(),
        None => "can't be asked".into(),
    };
    format!(
        "document 01: {:#x} {}; the crate: {said}; ours: {:#x} {}",
        due.word,
        hex(&due.out),
        reply.word,
        hex(&reply.out)
    )
}
