//! Shapes written as texts: every kind, count and bound, every offset; and texts read, written and read again.

use super::Run;
use super::reports::{large_offsets, some_buffer};
use crate::ours::plans::{PlanCall, PlanReply};
use crate::ours::shape_room::ShapeRoom;
use crate::outline_pieces::{BEYOND, numbers};
use crate::random::Random;
use crate::rule_wkt::{self, ALL_KINDS, LONGEST_TEXT};
use crate::wkt_pieces::{ALL_SPELLINGS, edge_values, good_text, kind, shape, value};

pub fn compare(run: &mut Run) {
    kinds_and_counts(run);
    every_bound(run);
    every_offset(run);
    several_faults(run);
    there_and_back(run);
}

fn ask(run: &mut Run, kind: u32, numbers: &[i32], room: usize, offset: u64) {
    let buffer = some_buffer(&mut run.random, room);
    run.ask_plan(PlanCall::write_wkt(kind, numbers, buffer, offset));
}

/// How many bytes the text has, or would need if it weren't refused.
fn length(kind: u32, numbers: &[i32]) -> usize {
    rule_wkt::text_of(kind, numbers).map_or(20, |text| text.len())
}

/// Into a buffer that has room for it, just has, or just hasn't.
fn ask_somewhere(run: &mut Run, kind: u32, numbers: &[i32]) {
    let offset = run.random.below(5);
    let room = offset + length(kind, numbers) + run.random.pick(&[0, 1, 1, 2, 9]) - 1;
    ask(run, kind, numbers, room, offset as u64);
}

fn some_numbers(random: &mut Random, count: usize) -> Vec<i32> {
    (0..count).map(|_| value(random)).collect()
}

/// Kinds that there are, and others that would be if their high bits were lost.
const KINDS: [u32; 15] = [
    0,
    1,
    2,
    3,
    4,
    5,
    255,
    256,
    257,
    258,
    259,
    65_537,
    (1 << 31) + 2,
    u32::MAX - 1,
    u32::MAX,
];

fn kinds_and_counts(run: &mut Run) {
    run.begin("text written, kinds 0 to 5 and large ones, each with 0 to 134 numbers and more");
    let large = [256, 258, 260, 262, 384, 512, 514, 65_538, 65_540, 65_542];
    for kind in KINDS {
        for count in (0..=134).chain(large) {
            for _ in 0..run.times(8) {
                let mut numbers = some_numbers(&mut run.random, count);
                if count > 0 && run.random.below(4) == 0 {
                    numbers[run.random.below(count)] = run.random.pick(&BEYOND);
                }
                ask_somewhere(run, kind, &numbers);
            }
        }
        // Some are long: not too many at once.
        run.answer_waiting();
    }
}

fn every_bound(run: &mut Run) {
    run.begin(
        "text written, numbers of every count of digits, at the limits and beyond, place by place",
    );
    for kind in ALL_KINDS {
        let (least, most) = kind.corners().into_inner();
        for corners in [least, least.max(most / 2), most] {
            for place in 0..2 * corners {
                for value in edge_values().into_iter().chain(BEYOND) {
                    let mut numbers = some_numbers(&mut run.random, 2 * corners);
                    numbers[place] = value;
                    ask_somewhere(run, kind as u32, &numbers);
                }
            }
        }
    }
}

fn every_offset(run: &mut Run) {
    run.begin("text written, every offset in and around buffers of up to 48 bytes");
    for kind in ALL_KINDS {
        for room in 0..=48 {
            for offset in 0..=room as u64 + 3 {
                for _ in 0..run.times(3) {
                    let numbers = numbers(&shape(&mut run.random, kind, 3).corners);
                    ask(run, kind as u32, &numbers, room, offset);
                }
            }
        }
    }
    run.begin("text written, offsets that just leave room, and that just don't");
    for _ in 0..run.times(2000) {
        let kind = kind(&mut run.random);
        let numbers = numbers(&shape(&mut run.random, kind, 64).corners);
        let length = length(kind as u32, &numbers);
        let more = run.random.pick(&[0, 1, 2, 17]);
        let room = length + more;
        for offset in [0, more.saturating_sub(1), more, more + 1, room, room + 1] {
            ask(run, kind as u32, &numbers, room, offset as u64);
        }
        ask(run, kind as u32, &numbers, length - 1, 0);
        ask(run, kind as u32, &numbers, 0, 0);
    }
    run.begin("text written, offsets near the largest number and its halves");
    for kind in ALL_KINDS {
        for room in [0, 1, 11, 12, 40, 200, 1700] {
            for offset in large_offsets() {
                let numbers = numbers(&shape(&mut run.random, kind, 4).corners);
                ask(run, kind as u32, &numbers, room, offset);
            }
        }
    }
}

/// So that the order of the refusals shows.
fn several_faults(run: &mut Run) {
    run.begin("text written, no fault up to three at once");
    for _ in 0..run.times(40_000) {
        let kind = run.random.pick(&[0, 1, 1, 2, 2, 2, 3, 3, 3, 4, u32::MAX]);
        let count = run
            .random
            .pick(&[0, 1, 2, 2, 3, 4, 4, 5, 6, 6, 7, 8, 126, 127, 128, 129, 130]);
        let mut numbers = some_numbers(&mut run.random, count);
        if count > 0 && run.random.below(2) == 0 {
            numbers[run.random.below(count)] = run.random.pick(&BEYOND);
        }
        let room = run.random.pick(&[0, 5, 11, 20, 100, LONGEST_TEXT]);
        let offset = run.random.pick(&[0, 0, 1, 6, 90, 2000, u64::MAX]);
        ask(run, kind, &numbers, room, offset);
    }
}

/// "Reading what was written gives the same shape, and writing what was read a second time gives the same bytes": the
/// library's own replies are given to it again.
fn there_and_back(run: &mut Run) {
    run.begin("text read, written, read and written again");
    for _ in 0..run.times(20) {
        let mut texts = Vec::new();
        for _ in 0..1000 {
            let kind = kind(&mut run.random);
            let spelling = ALL_SPELLINGS[usize::from(run.random.below(4) == 0)];
            let most = run.random.pick(&[1, 3, 5, 10, 64]);
            texts.push(good_text(&mut run.random, kind, most, spelling));
        }
        let shapes = read(run, texts);
        let written = write(run, &shapes);
        let again = read(run, written.clone());
        assert_eq!(again, shapes, "what was written gives the same shapes");
        let twice = write(run, &again);
        assert_eq!(twice, written, "what was read gives the same bytes");
    }
}

fn read(run: &mut Run, texts: Vec<Vec<u8>>) -> Vec<ShapeRoom> {
    let nines = ShapeRoom::filled(9);
    let call = |text| PlanCall::read_wkt(text, &nines);
    let calls: Vec<PlanCall> = texts.into_iter().map(call).collect();
    let replies = run.answered(&calls);
    let room = |reply: &PlanReply| ShapeRoom::from_le_bytes(&reply.out);
    replies.iter().map(room).collect()
}

fn write(run: &mut Run, shapes: &[ShapeRoom]) -> Vec<Vec<u8>> {
    let call = |shape: &ShapeRoom| {
        let numbers = &shape.xy[..2 * shape.answer[1] as usize];
        PlanCall::write_wkt(shape.answer[0] as u32, numbers, vec![0; LONGEST_TEXT], 0)
    };
    let calls: Vec<PlanCall> = shapes.iter().map(call).collect();
    let replies = run.answered(&calls);
    let text = |reply: &PlanReply| reply.bytes[..reply.word as usize].to_vec();
    replies.iter().map(text).collect()
}
