//! Calls on ends, plan records, stored reports, outlines, shapes' texts, floors and regions' names: their bytes are of
//! any count, so they are written down apart.
//!
//! What a call is lent stands in one stretch, with guards before, between and after: the bytes that it may write an
//! answer into (`out`), then the ends, the record, the report, the buffer, the outline's numbers, the text or the floor
//! (`bytes`). Converting has the buffer in `out`, since it reads a report or a record too; writing a shape has its numbers there, a
//! floor in pieces its pieces. The stretch is the same whether the library is linked or in a program of its own.
//! Numbers in it have their low byte first, as x86-64 has them.

use super::floor_room::{self, FloorRoom};
#[cfg(all(linked, not(far)))]
use super::floors;
#[cfg(all(linked, not(far)))]
use super::linked;
use super::shape_room::ShapeRoom;
#[cfg(all(linked, not(far)))]
use super::traced;
use super::traced_room::TracedRoom;

/// Room for the labels of a star of so many ends, and of most stars that are asked about: 32 of seven bytes.
pub const fn room_for(ends: usize) -> usize {
    7 * ends
}
pub const LABELS: usize = room_for(32);

/// What a label lent holds before the call: a byte that no answer has, so that one that isn't written shows.
pub const HELD: u8 = 9;
const GUARD: usize = 16;
const GUARD_BYTE: u8 = 0x5A;

#[derive(Clone, Copy, Debug, PartialEq, Eq, PartialOrd, Ord)]
#[repr(u8)]
pub enum PlanOp {
    Bundle = 0,
    Star = 1,
    Record = 2,
    ReadReport = 3,
    WriteReport = 4,
    WriteShortReport = 5,
    ConvertReport = 6,
    PointInOutline = 7,
    ReadWkt = 8,
    WriteWkt = 9,
    Floor = 10,
    /// A floor without the call above: the record call, again and again.
    OneByOne = 11,
    /// All calls on a floor that comes in pieces.
    Pieces = 12,
    ConvertRecord = 13,
    RegionName = 40,
    TracedRecord = 50,
    TracedFloor = 51,
    TracedTranspose = 52,
}

impl PlanOp {
    /// The function's name in the C interface.
    pub fn name(self) -> &'static str {
        match self {
            PlanOp::Bundle => "misonkandi_bundle",
            PlanOp::Star => "misonkandi_star",
            PlanOp::Record => "misonkandi_record",
            PlanOp::ReadReport => "misonkandi_read_report",
            PlanOp::WriteReport => "misonkandi_write_report",
            PlanOp::WriteShortReport => "misonkandi_write_short_report",
            PlanOp::ConvertReport => "misonkandi_convert_report",
            PlanOp::PointInOutline => "misonkandi_point_in_outline",
            PlanOp::ReadWkt => "misonkandi_read_wkt",
            PlanOp::WriteWkt => "misonkandi_write_wkt",
            PlanOp::Floor => "misonkandi_floor",
            PlanOp::OneByOne => "misonkandi_record, one by one",
            PlanOp::Pieces => "misonkandi_finish",
            PlanOp::ConvertRecord => "misonkandi_convert_record",
            PlanOp::RegionName => "misonkandi_region_name",
            PlanOp::TracedRecord => "misonkandi_traced_record",
            PlanOp::TracedFloor => "misonkandi_traced_floor",
            PlanOp::TracedTranspose => "misonkandi_traced_transpose",
        }
    }
}

/// One call. What an operation doesn't take is 0.
#[derive(Clone, Debug)]
pub struct PlanCall {
    pub op: PlanOp,
    /// A label's seven bytes, the room for a star's labels, nine cells, the buffer of converting, the room of a shape
    /// that is read, the numbers of one that is written, or the room of a floor and its pieces; as they are before the
    /// call.
    pub out: Vec<u8>,
    pub bytes: Vec<u8>,
    /// The area codes, the bits of the point's x and y, a shape's kind, or a region.
    pub a: u32,
    pub b: u32,
    pub offset: u64,
}

impl PlanCall {
    pub fn bundle(ends: Vec<u8>) -> Self {
        PlanCall {
            op: PlanOp::Bundle,
            out: vec![HELD; 7],
            bytes: ends,
            a: 0,
            b: 0,
            offset: 0,
        }
    }

    /// Room for 32 labels.
    pub fn star(ends: Vec<u8>, a: u32, b: u32) -> Self {
        PlanCall::star_in(LABELS, ends, a, b)
    }

    /// Into so many bytes.
    pub fn star_in(room: usize, ends: Vec<u8>, a: u32, b: u32) -> Self {
        PlanCall {
            op: PlanOp::Star,
            out: vec![HELD; room],
            a,
            b,
            ..PlanCall::bundle(ends)
        }
    }

    pub fn on_cells(op: PlanOp, cells: [u8; 9], bytes: Vec<u8>) -> Self {
        PlanCall {
            op,
            out: cells.to_vec(),
            ..PlanCall::bundle(bytes)
        }
    }

    pub fn write_report(cells: [u8; 9], buffer: Vec<u8>, offset: u64) -> Self {
        PlanCall {
            offset,
            ..PlanCall::on_cells(PlanOp::WriteReport, cells, buffer)
        }
    }

    pub fn write_short_report(cells: [u8; 9], buffer: Vec<u8>, offset: u64) -> Self {
        PlanCall {
            op: PlanOp::WriteShortReport,
            ..PlanCall::write_report(cells, buffer, offset)
        }
    }

    pub fn convert_report(report: Vec<u8>, buffer: Vec<u8>, offset: u64) -> Self {
        PlanCall {
            op: PlanOp::ConvertReport,
            out: buffer,
            offset,
            ..PlanCall::bundle(report)
        }
    }

    pub fn convert_record(record: Vec<u8>, buffer: Vec<u8>, offset: u64) -> Self {
        PlanCall {
            op: PlanOp::ConvertRecord,
            ..PlanCall::convert_report(record, buffer, offset)
        }
    }

    /// The numbers need be no whole corners.
    pub fn point_in_outline(numbers: &[i32], (x, y): (i32, i32)) -> Self {
        PlanCall {
            op: PlanOp::PointInOutline,
            out: Vec::new(),
            a: x as u32,
            b: y as u32,
            ..PlanCall::bundle(low_bytes_first(numbers))
        }
    }

    pub fn read_wkt(text: Vec<u8>, room: &ShapeRoom) -> Self {
        PlanCall {
            op: PlanOp::ReadWkt,
            out: room.to_le_bytes(),
            ..PlanCall::bundle(text)
        }
    }

    /// The numbers need be no whole corners.
    pub fn write_wkt(kind: u32, numbers: &[i32], buffer: Vec<u8>, offset: u64) -> Self {
        PlanCall {
            op: PlanOp::WriteWkt,
            out: low_bytes_first(numbers),
            a: kind,
            offset,
            ..PlanCall::bundle(buffer)
        }
    }

    /// In one call, or one by one.
    pub fn floor(op: PlanOp, cells: [u8; 9], bytes: Vec<u8>) -> Self {
        PlanCall {
            op,
            out: FloorRoom::on(cells).to_le_bytes(),
            ..PlanCall::bundle(bytes)
        }
    }

    /// Pieces of these counts of bytes, which are all bytes together.
    pub fn pieces(cells: [u8; 9], counts: &[usize], bytes: Vec<u8>) -> Self {
        assert_eq!(counts.iter().sum::<usize>(), bytes.len());
        PlanCall {
            op: PlanOp::Pieces,
            out: floor_room::with_pieces(cells, counts),
            ..PlanCall::bundle(bytes)
        }
    }

    pub fn region_name(region: u32, buffer: Vec<u8>, offset: u64) -> Self {
        PlanCall {
            op: PlanOp::RegionName,
            out: Vec::new(),
            a: region,
            offset,
            ..PlanCall::bundle(buffer)
        }
    }

    /// On a traced matrix; transposing has no bytes.
    pub fn traced(op: PlanOp, cells: [u8; 9], numbers: [u32; 10], bytes: Vec<u8>) -> Self {
        PlanCall {
            op,
            out: TracedRoom::on(cells, numbers).to_le_bytes(),
            ..PlanCall::bundle(bytes)
        }
    }

    /// The numbers of an outline, or of a shape that is written.
    pub fn numbers(&self) -> Vec<i32> {
        match self.op {
            PlanOp::WriteWkt => numbers(&self.out),
            _ => numbers(&self.bytes),
        }
    }

    /// The point beside an outline.
    pub fn point(&self) -> (i32, i32) {
        (self.a as i32, self.b as i32)
    }

    /// The nine cells of a call that has them.
    pub fn cells(&self) -> [u8; 9] {
        self.out.as_slice().try_into().expect("nine cells")
    }

    /// The stretch before the call.
    pub(super) fn lent(&self) -> Vec<u8> {
        let guard = [GUARD_BYTE; GUARD];
        [&guard[..], &self.out, &guard, &self.bytes, &guard].concat()
    }

    fn out_at(&self) -> std::ops::Range<usize> {
        GUARD..GUARD + self.out.len()
    }

    fn bytes_at(&self) -> std::ops::Range<usize> {
        let start = 2 * GUARD + self.out.len();
        start..start + self.bytes.len()
    }
}

fn low_bytes_first(numbers: &[i32]) -> Vec<u8> {
    let bytes = numbers.iter().flat_map(|number| number.to_le_bytes());
    bytes.collect()
}

/// Numbers as a call is lent them, and as it leaves them.
pub fn numbers(bytes: &[u8]) -> Vec<i32> {
    let number = |four: &[u8]| i32::from_le_bytes(four.try_into().expect("four bytes"));
    bytes.chunks_exact(4).map(number).collect()
}

/// The answer, what was lent as the call left it, and whether a guard changed.
pub struct PlanReply {
    pub word: u32,
    pub out: Vec<u8>,
    pub bytes: Vec<u8>,
    pub stray: bool,
}

/// Takes the stretch apart after the call.
pub(super) fn reply(call: &PlanCall, word: u32, lent: &[u8]) -> PlanReply {
    let out = lent[call.out_at()].to_vec();
    let bytes = lent[call.bytes_at()].to_vec();
    let written = PlanCall {
        out: out.clone(),
        bytes: bytes.clone(),
        ..call.clone()
    };
    PlanReply {
        word,
        out,
        bytes,
        stray: written.lent() != lent,
    }
}

/// Makes one call on the stretch, in this process.
#[cfg(all(linked, not(far)))]
pub(super) fn answer(call: &PlanCall) -> PlanReply {
    let mut lent = call.lent();
    if call.op == PlanOp::PointInOutline {
        let word = point_in_outline(call, &mut lent);
        return reply(call, word, &lent);
    }
    if call.op == PlanOp::ReadWkt {
        let word = read_wkt(call, &mut lent);
        return reply(call, word, &lent);
    }
    if matches!(
        call.op,
        PlanOp::Floor
            | PlanOp::OneByOne
            | PlanOp::Pieces
            | PlanOp::TracedRecord
            | PlanOp::TracedFloor
            | PlanOp::TracedTranspose
    ) {
        let word = floor(call, &mut lent);
        return reply(call, word, &lent);
    }
    let (front, back) = lent.split_at_mut(call.bytes_at().start);
    let out = &mut front[call.out_at()];
    let bytes = &mut back[..call.bytes.len()];
    let offset = usize::try_from(call.offset).expect("as wide as an offset there");
    let word = match call.op {
        PlanOp::Bundle => linked::bundle(bytes, out.try_into().expect("seven")),
        PlanOp::Star => linked::star(bytes, call.a, call.b, out),
        PlanOp::Record => linked::record(out.try_into().expect("nine"), bytes),
        PlanOp::ReadReport => linked::read_report(out.try_into().expect("nine"), bytes),
        PlanOp::WriteReport => {
            linked::write_report((&*out).try_into().expect("nine"), bytes, offset)
        }
        PlanOp::WriteShortReport => {
            linked::write_short_report((&*out).try_into().expect("nine"), bytes, offset)
        }
        PlanOp::ConvertReport => linked::convert_report(bytes, out, offset),
        PlanOp::ConvertRecord => linked::convert_record(bytes, out, offset),
        PlanOp::WriteWkt => linked::write_wkt(call.a, &numbers(out), bytes, offset),
        PlanOp::RegionName => linked::region_name(call.a, bytes, offset),
        PlanOp::PointInOutline
        | PlanOp::ReadWkt
        | PlanOp::Floor
        | PlanOp::OneByOne
        | PlanOp::Pieces
        | PlanOp::TracedRecord
        | PlanOp::TracedFloor
        | PlanOp::TracedTranspose => unreachable!("made above"),
    };
    reply(call, word, &lent)
}

/// Numbers must lie at a multiple of four. The whole stretch is copied to where they do, guards too, and back.
#[cfg(all(linked, not(far)))]
fn point_in_outline(call: &PlanCall, lent: &mut [u8]) -> u32 {
    let stretch = numbers(lent);
    let at = call.bytes_at();
    let (x, y) = call.point();
    let word = linked::point_in_outline(&stretch[at.start / 4..at.end / 4], x, y);
    for (four, number) in lent.chunks_exact_mut(4).zip(stretch) {
        four.copy_from_slice(&number.to_le_bytes());
    }
    word
}

/// Numbers must lie at a multiple of their size: the room is copied to where they do, between two others that may not
/// change, and back. A change of these shows in the stretch's first guard.
#[cfg(all(linked, not(far)))]
fn read_wkt(call: &PlanCall, lent: &mut [u8]) -> u32 {
    let (front, back) = lent.split_at_mut(call.bytes_at().start);
    let guard = ShapeRoom::filled(HELD.into());
    let room = ShapeRoom::from_le_bytes(&front[call.out_at()]);
    let mut rooms = [guard.clone(), room, guard.clone()];
    let ShapeRoom { answer, xy } = &mut rooms[1];
    let word = linked::read_wkt(&back[..call.bytes.len()], xy, answer);
    front[call.out_at()].copy_from_slice(&rooms[1].to_le_bytes());
    if rooms[0] != guard || rooms[2] != guard {
        front[0] = !GUARD_BYTE;
    }
    word
}

/// A change where none may be shows in the stretch's first guard.
#[cfg(all(linked, not(far)))]
fn floor(call: &PlanCall, lent: &mut [u8]) -> u32 {
    let (front, back) = lent.split_at_mut(call.bytes_at().start);
    let bytes = &back[..call.bytes.len()];
    let out = &mut front[call.out_at()];
    let (word, left) = match call.op {
        PlanOp::TracedRecord | PlanOp::TracedFloor | PlanOp::TracedTranspose => {
            traced::answer(call.op, out, bytes)
        }
        _ => floors::answer(call.op, out, bytes),
    };
    if !left {
        front[0] = !GUARD_BYTE;
    }
    word
}
