//! The library's C interface, as crates/misonkandi/misonkandi.h declares it, and the only unsafe code over it. The file
//! names nothing of the crate around it: the oracle compiles it too (`#[path]`), and calls the library by it.
//!
//! A fixed number of bytes crosses as a reference to an array, a state as one to its struct; C sees a pointer. A slice
//! crosses as its pointer and its count; that of an empty one leads nowhere, and the library doesn't follow it.
#![allow(dead_code, unused_imports)] // The oracle uses some of it, and so does a build without stars.

/// What the calls that take a predicate's or a region's number or name answer where there is no such one. No answer and
/// no refusal equals it.
pub const NO_SUCH_ROW: u32 = 0xFFFF_FFFF;

/// A refusal is this, plus 256 times its number, plus its place. A word below it is an answer.
pub const REFUSED: u32 = 1 << 31;

/// What is kept of a floor that comes in pieces: the header's struct, which is bytes alone, so any bytes are one.
#[repr(C)]
#[derive(Clone, Copy, PartialEq, Eq)]
pub struct Pieces {
    bytes: [u8; 9045],
}

impl Pieces {
    /// Zeros, to be lent to [`start`].
    pub const BLANK: Pieces = Pieces { bytes: [0; 9045] };
}

mod declared {
    use super::Pieces;

    // SAFETY: these are the header's declarations, and libmisonkandi.a is built with it. Each function is proved to touch
    // what it is lent and nothing else, to keep no pointer and to end. Those marked safe are lent arrays and states alone.
    unsafe extern "C" {
        pub safe fn misonkandi_predicates(cells: &[u8; 9]) -> u32;
        pub safe fn misonkandi_predicate(cells: &[u8; 9], row: u32) -> u32;
        pub safe fn misonkandi_verdict(cells: &[u8; 9], row: u32) -> u32;
        pub safe fn misonkandi_verdicts(cells: &[u8; 9], verdicts: &mut [u8; 11]);
        pub safe fn misonkandi_pack(cells: &[u8; 9]) -> u32;
        pub safe fn misonkandi_unpack(room: u32, cells: &mut [u8; 9]);
        pub safe fn misonkandi_masks_match(masks: &[u32; 4], room: u32) -> u32;
        pub safe fn misonkandi_masks_verdict(masks: &[u32; 4], room: u32) -> u32;
        pub safe fn misonkandi_to_text(cells: &[u8; 9], text: &mut [u8; 9]);
        pub safe fn misonkandi_set(cells: &mut [u8; 9], a: u32, b: u32, dimension: u8) -> u32;
        pub safe fn misonkandi_set_at_least(
            cells: &mut [u8; 9],
            a: u32,
            b: u32,
            dimension: u8,
        ) -> u32;
        pub safe fn misonkandi_transpose(cells: &mut [u8; 9]);
        pub safe fn misonkandi_relate_places(
            kind_a: u32,
            ax: f64,
            ay: f64,
            bx: f64,
            by: f64,
            kind_b: u32,
            cx: f64,
            cy: f64,
            dx: f64,
            dy: f64,
            cells: &mut [u8; 9],
        ) -> u32;
        pub safe fn misonkandi_region(cells: &[u8; 9]) -> u32;
        pub safe fn misonkandi_region_of_boxes(
            ax: f64,
            ay: f64,
            bx: f64,
            by: f64,
            cx: f64,
            cy: f64,
            dx: f64,
            dy: f64,
        ) -> u32;

        pub safe fn misonkandi_traced_transpose(cells: &mut [u8; 9], numbers: &mut [u32; 10]);
        pub safe fn misonkandi_start(state: &mut Pieces, cells: &[u8; 9]);
        pub safe fn misonkandi_finish(
            state: &Pieces,
            cells: &mut [u8; 9],
            answer: &mut [u64; 2],
        ) -> u32;

        pub fn misonkandi_predicate_named(name: *const u8, count: usize) -> u32;
        pub fn misonkandi_region_named(name: *const u8, count: usize) -> u32;
        pub fn misonkandi_region_name(
            region: u32,
            buffer: *mut u8,
            room: usize,
            offset: usize,
        ) -> u32;
        pub fn misonkandi_matches(cells: &[u8; 9], pattern: *const u8, count: usize) -> u32;
        pub fn misonkandi_verdict_pattern(cells: &[u8; 9], pattern: *const u8, count: usize)
        -> u32;
        pub fn misonkandi_masks(pattern: *const u8, count: usize, masks: &mut [u32; 4]) -> u32;
        pub fn misonkandi_masks_match_all(
            masks: &[u32; 4],
            rooms: *const u32,
            count: usize,
            answers: *mut u8,
            room: usize,
        ) -> u32;
        pub fn misonkandi_masks_verdict_all(
            masks: &[u32; 4],
            rooms: *const u32,
            count: usize,
            answers: *mut u8,
            room: usize,
        ) -> u32;
        pub fn misonkandi_masks_count(masks: &[u32; 4], rooms: *const u32, count: usize) -> u64;
        pub fn misonkandi_from_text(cells: &mut [u8; 9], text: *const u8, count: usize) -> u32;
        pub fn misonkandi_raise_from_text(
            cells: &mut [u8; 9],
            text: *const u8,
            count: usize,
        ) -> u32;
        pub fn misonkandi_bundle(ends: *const u8, count: usize, label: &mut [u8; 7]) -> u32;
        pub fn misonkandi_star(
            ends: *const u8,
            count: usize,
            area_a: u32,
            area_b: u32,
            labels: *mut u8,
            room: usize,
        ) -> u32;
        pub fn misonkandi_record(cells: &mut [u8; 9], bytes: *const u8, count: usize) -> u32;
        pub fn misonkandi_floor(
            cells: &mut [u8; 9],
            bytes: *const u8,
            count: usize,
            answer: &mut [u64; 2],
        ) -> u32;
        pub fn misonkandi_traced_record(
            cells: &mut [u8; 9],
            numbers: &mut [u32; 10],
            bytes: *const u8,
            count: usize,
        ) -> u32;
        pub fn misonkandi_traced_floor(
            cells: &mut [u8; 9],
            numbers: &mut [u32; 10],
            bytes: *const u8,
            count: usize,
            answer: &mut [u64; 2],
        ) -> u32;
        pub fn misonkandi_push(state: &mut Pieces, bytes: *const u8, count: usize) -> u32;
        pub fn misonkandi_read_report(cells: &mut [u8; 9], bytes: *const u8, count: usize) -> u32;
        pub fn misonkandi_write_report(
            cells: &[u8; 9],
            buffer: *mut u8,
            count: usize,
            offset: usize,
        ) -> u32;
        pub fn misonkandi_write_short_report(
            cells: &[u8; 9],
            buffer: *mut u8,
            room: usize,
            offset: usize,
        ) -> u32;
        pub fn misonkandi_convert_report(
            bytes: *const u8,
            count: usize,
            buffer: *mut u8,
            room: usize,
            offset: usize,
        ) -> u32;
        pub fn misonkandi_convert_record(
            bytes: *const u8,
            count: usize,
            buffer: *mut u8,
            room: usize,
            offset: usize,
        ) -> u32;
        pub fn misonkandi_point_in_outline(xy: *const i32, numbers: usize, x: i32, y: i32) -> u32;
        pub fn misonkandi_relate_outlines(
            a: *const i32,
            a_numbers: usize,
            b: *const i32,
            b_numbers: usize,
            cells: &mut [u8; 9],
            answer: &mut [u64; 3],
        ) -> u32;
        pub fn misonkandi_commission(
            a: *const i32,
            a_numbers: usize,
            b: *const i32,
            b_numbers: usize,
            buffer: *mut u8,
            room: usize,
            offset: usize,
        ) -> u32;
        pub fn misonkandi_read_wkt(
            text: *const u8,
            count: usize,
            xy: &mut [i32; 128],
            answer: &mut [u64; 3],
        ) -> u32;
        pub fn misonkandi_write_wkt(
            kind: u32,
            xy: *const i32,
            numbers: usize,
            buffer: *mut u8,
            room: usize,
            offset: usize,
        ) -> u32;
    }
}

pub use declared::misonkandi_finish as finish;
pub use declared::misonkandi_masks_match as masks_match;
pub use declared::misonkandi_masks_verdict as masks_verdict;
pub use declared::misonkandi_pack as pack;
pub use declared::misonkandi_predicate as predicate;
pub use declared::misonkandi_predicates as predicates;
pub use declared::misonkandi_region as region;
pub use declared::misonkandi_set as set;
pub use declared::misonkandi_set_at_least as set_at_least;
pub use declared::misonkandi_start as start;
pub use declared::misonkandi_to_text as to_text;
pub use declared::misonkandi_traced_transpose as traced_transpose;
pub use declared::misonkandi_transpose as transpose;
pub use declared::misonkandi_unpack as unpack;
pub use declared::misonkandi_verdict as verdict;
pub use declared::misonkandi_verdicts as verdicts;

/// A place is its kind and four coordinates.
pub fn relate_places(a: (u32, [f64; 4]), b: (u32, [f64; 4]), cells: &mut [u8; 9]) -> u32 {
    let (kind_a, [ax, ay, bx, by]) = a;
    let (kind_b, [cx, cy, dx, dy]) = b;
    declared::misonkandi_relate_places(kind_a, ax, ay, bx, by, kind_b, cx, cy, dx, dy, cells)
}

/// A box is its min and its max corner.
pub fn region_of_boxes([ax, ay, bx, by]: [f64; 4], [cx, cy, dx, dy]: [f64; 4]) -> u32 {
    declared::misonkandi_region_of_boxes(ax, ay, bx, by, cx, cy, dx, dy)
}

pub fn region_named(name: &[u8]) -> u32 {
    // SAFETY: pointer and count are those of one slice, lent to be read until the call ends.
    unsafe { declared::misonkandi_region_named(name.as_ptr(), name.len()) }
}

pub fn region_name(region: u32, buffer: &mut [u8], offset: usize) -> u32 {
    let (start, room) = (buffer.as_mut_ptr(), buffer.len());
    // SAFETY: pointer and count are those of one slice, lent to nobody else until the call ends.
    unsafe { declared::misonkandi_region_name(region, start, room, offset) }
}

pub fn predicate_named(name: &[u8]) -> u32 {
    // SAFETY: pointer and count are those of one slice, lent to be read until the call ends.
    unsafe { declared::misonkandi_predicate_named(name.as_ptr(), name.len()) }
}

pub fn matches(cells: &[u8; 9], pattern: &[u8]) -> u32 {
    // SAFETY: pointer and count are those of one slice, lent to be read until the call ends.
    unsafe { declared::misonkandi_matches(cells, pattern.as_ptr(), pattern.len()) }
}

pub fn verdict_pattern(cells: &[u8; 9], pattern: &[u8]) -> u32 {
    // SAFETY: pointer and count are those of one slice, lent to be read until the call ends.
    unsafe { declared::misonkandi_verdict_pattern(cells, pattern.as_ptr(), pattern.len()) }
}

pub fn masks(pattern: &[u8], masks: &mut [u32; 4]) -> u32 {
    // SAFETY: pointer and count are those of one slice, lent to be read until the call ends; the masks lie elsewhere.
    unsafe { declared::misonkandi_masks(pattern.as_ptr(), pattern.len(), masks) }
}

pub fn masks_match_all(masks: &[u32; 4], rooms: &[u32], answers: &mut [u8]) -> u32 {
    let (start, room) = (answers.as_mut_ptr(), answers.len());
    // SAFETY: each pointer and count are those of one slice. The rooms are lent to be read until the call ends, the
    // answers are lent to nobody else until then, and so lie elsewhere.
    unsafe { declared::misonkandi_masks_match_all(masks, rooms.as_ptr(), rooms.len(), start, room) }
}

pub fn masks_verdict_all(masks: &[u32; 4], rooms: &[u32], answers: &mut [u8]) -> u32 {
    let (start, room) = (answers.as_mut_ptr(), answers.len());
    // SAFETY: each pointer and count are those of one slice. The rooms are lent to be read until the call ends, the
    // answers are lent to nobody else until then, and so lie elsewhere.
    unsafe {
        declared::misonkandi_masks_verdict_all(masks, rooms.as_ptr(), rooms.len(), start, room)
    }
}

pub fn masks_count(masks: &[u32; 4], rooms: &[u32]) -> u64 {
    // SAFETY: pointer and count are those of one slice, lent to be read until the call ends.
    unsafe { declared::misonkandi_masks_count(masks, rooms.as_ptr(), rooms.len()) }
}

pub fn from_text(cells: &mut [u8; 9], text: &[u8]) -> u32 {
    // SAFETY: pointer and count are those of one slice, lent to be read until the call ends; the cells lie elsewhere.
    unsafe { declared::misonkandi_from_text(cells, text.as_ptr(), text.len()) }
}

pub fn raise_from_text(cells: &mut [u8; 9], text: &[u8]) -> u32 {
    // SAFETY: pointer and count are those of one slice, lent to be read until the call ends; the cells lie elsewhere.
    unsafe { declared::misonkandi_raise_from_text(cells, text.as_ptr(), text.len()) }
}

pub fn bundle(ends: &[u8], label: &mut [u8; 7]) -> u32 {
    // SAFETY: pointer and count are those of one slice, lent to be read until the call ends; the label lies elsewhere.
    unsafe { declared::misonkandi_bundle(ends.as_ptr(), ends.len(), label) }
}

pub fn star(ends: &[u8], area_a: u32, area_b: u32, labels: &mut [u8]) -> u32 {
    let (start, room) = (labels.as_mut_ptr(), labels.len());
    // SAFETY: each pointer and count are those of one slice. The ends are lent to be read until the call ends, the
    // labels are lent to nobody else until then, and so lie elsewhere.
    unsafe { declared::misonkandi_star(ends.as_ptr(), ends.len(), area_a, area_b, start, room) }
}

pub fn record(cells: &mut [u8; 9], bytes: &[u8]) -> u32 {
    // SAFETY: pointer and count are those of one slice, lent to be read until the call ends; the cells lie elsewhere.
    unsafe { declared::misonkandi_record(cells, bytes.as_ptr(), bytes.len()) }
}

pub fn floor(cells: &mut [u8; 9], bytes: &[u8], answer: &mut [u64; 2]) -> u32 {
    // SAFETY: pointer and count are those of one slice, lent to be read until the call ends; both arrays lie elsewhere.
    unsafe { declared::misonkandi_floor(cells, bytes.as_ptr(), bytes.len(), answer) }
}

pub fn traced_record(cells: &mut [u8; 9], numbers: &mut [u32; 10], bytes: &[u8]) -> u32 {
    // SAFETY: pointer and count are those of one slice, lent to be read until the call ends; both arrays lie elsewhere.
    unsafe { declared::misonkandi_traced_record(cells, numbers, bytes.as_ptr(), bytes.len()) }
}

pub fn traced_floor(
    cells: &mut [u8; 9],
    numbers: &mut [u32; 10],
    bytes: &[u8],
    answer: &mut [u64; 2],
) -> u32 {
    let (start, count) = (bytes.as_ptr(), bytes.len());
    // SAFETY: pointer and count are those of one slice, lent to be read until the call ends; the arrays lie elsewhere.
    unsafe { declared::misonkandi_traced_floor(cells, numbers, start, count, answer) }
}

pub fn push(state: &mut Pieces, bytes: &[u8]) -> u32 {
    // SAFETY: pointer and count are those of one slice, lent to be read until the call ends; the state lies elsewhere.
    unsafe { declared::misonkandi_push(state, bytes.as_ptr(), bytes.len()) }
}

pub fn read_report(cells: &mut [u8; 9], bytes: &[u8]) -> u32 {
    // SAFETY: pointer and count are those of one slice, lent to be read until the call ends; the cells lie elsewhere.
    unsafe { declared::misonkandi_read_report(cells, bytes.as_ptr(), bytes.len()) }
}

pub fn write_report(cells: &[u8; 9], buffer: &mut [u8], offset: usize) -> u32 {
    let (start, count) = (buffer.as_mut_ptr(), buffer.len());
    // SAFETY: pointer and count are those of one slice, lent to nobody else until the call ends; the cells lie elsewhere.
    unsafe { declared::misonkandi_write_report(cells, start, count, offset) }
}

pub fn write_short_report(cells: &[u8; 9], buffer: &mut [u8], offset: usize) -> u32 {
    let (start, room) = (buffer.as_mut_ptr(), buffer.len());
    // SAFETY: pointer and count are those of one slice, lent to nobody else until the call ends; the cells lie elsewhere.
    unsafe { declared::misonkandi_write_short_report(cells, start, room, offset) }
}

pub fn convert_report(bytes: &[u8], buffer: &mut [u8], offset: usize) -> u32 {
    let (start, room) = (buffer.as_mut_ptr(), buffer.len());
    // SAFETY: each pointer and count are those of one slice. The bytes are lent to be read until the call ends, the
    // buffer is lent to nobody else until then, and so lies elsewhere.
    unsafe { declared::misonkandi_convert_report(bytes.as_ptr(), bytes.len(), start, room, offset) }
}

pub fn convert_record(bytes: &[u8], buffer: &mut [u8], offset: usize) -> u32 {
    let (start, room) = (buffer.as_mut_ptr(), buffer.len());
    // SAFETY: each pointer and count are those of one slice. The bytes are lent to be read until the call ends, the
    // buffer is lent to nobody else until then, and so lies elsewhere.
    unsafe { declared::misonkandi_convert_record(bytes.as_ptr(), bytes.len(), start, room, offset) }
}

pub fn point_in_outline(xy: &[i32], x: i32, y: i32) -> u32 {
    // SAFETY: pointer and count are those of one slice, lent to be read until the call ends.
    unsafe { declared::misonkandi_point_in_outline(xy.as_ptr(), xy.len(), x, y) }
}

pub fn relate_outlines(a: &[i32], b: &[i32], cells: &mut [u8; 9], answer: &mut [u64; 3]) -> u32 {
    let (start, numbers) = (b.as_ptr(), b.len());
    // SAFETY: each pointer and count are those of one slice, lent to be read until the call ends; both arrays lie
    // elsewhere.
    unsafe {
        declared::misonkandi_relate_outlines(a.as_ptr(), a.len(), start, numbers, cells, answer)
    }
}

pub fn commission(a: &[i32], b: &[i32], buffer: &mut [u8], offset: usize) -> u32 {
    let (start, room) = (buffer.as_mut_ptr(), buffer.len());
    // SAFETY: each pointer and count are those of one slice. The numbers are lent to be read until the call ends, the
    // buffer is lent to nobody else until then, and so lies elsewhere.
    unsafe {
        declared::misonkandi_commission(
            a.as_ptr(),
            a.len(),
            b.as_ptr(),
            b.len(),
            start,
            room,
            offset,
        )
    }
}

pub fn read_wkt(text: &[u8], xy: &mut [i32; 128], answer: &mut [u64; 3]) -> u32 {
    // SAFETY: pointer and count are those of one slice, lent to be read until the call ends; both arrays lie elsewhere.
    unsafe { declared::misonkandi_read_wkt(text.as_ptr(), text.len(), xy, answer) }
}

pub fn write_wkt(kind: u32, xy: &[i32], buffer: &mut [u8], offset: usize) -> u32 {
    let (start, room) = (buffer.as_mut_ptr(), buffer.len());
    // SAFETY: each pointer and count are those of one slice. The numbers are lent to be read until the call ends, the
    // buffer is lent to nobody else until then, and so lies elsewhere.
    unsafe { declared::misonkandi_write_wkt(kind, xy.as_ptr(), xy.len(), start, room, offset) }
}
