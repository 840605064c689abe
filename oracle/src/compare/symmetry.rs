//! Request R-12: the ends of a node and the records of a floor in any order, and A and B exchanged. The library's answers
//! are held to each other; each of them is compared with document 01's rule and the crate's files too, as everywhere.

use super::Run;
use crate::floor_pieces::{accepted_node_of, any_floor_of, floor_of};
use crate::ours::floor_room::FloorRoom;
use crate::ours::plans::{PlanCall, PlanOp, PlanReply};
use crate::ours::{Call, Op, Reply};
use crate::pieces::{MATRICES, good_pattern, matrix_by_number};
use crate::plan_pieces::{Version, edge_record_of};
use crate::random::Random;
use crate::rule_plan::Form;
use crate::rule_star::END_BYTES;

/// Counts of ends of which many orders are tried, and how many.
const COUNTS: [usize; 12] = [0, 1, 2, 3, 4, 7, 16, 31, 32, 33, 64, 600];
const ORDERS: usize = 60;
/// For each predicate, in the table's order, the one that answers of the transposed matrix as it did; contains_properly
/// has none.
const PARTNERS: [Option<u32>; 11] = [
    Some(0),
    Some(1),
    Some(3),
    Some(2),
    Some(4),
    Some(6),
    Some(5),
    None,
    Some(8),
    Some(9),
    Some(10),
];

pub fn compare(run: &mut Run) {
    ends_in_any_order(run);
    records_in_any_order(run);
    sides_exchanged(run);
    answers_transposed(run);
    patterns_transposed(run);
}

fn shuffle<T>(random: &mut Random, all: &mut [T]) {
    for last in (1..all.len()).rev() {
        all.swap(last, random.below(last + 1));
    }
}

/// Where a whole record ends, by its length field; a part of one reaches to the end.
fn first_record(bytes: &[u8]) -> usize {
    match bytes {
        [high, low, ..] => bytes
            .len()
            .min(2 + usize::from(u16::from_be_bytes([*high, *low]))),
        _ => bytes.len(),
    }
}

fn records(mut bytes: &[u8]) -> Vec<Vec<u8>> {
    let mut all = Vec::new();
    while !bytes.is_empty() {
        let (first, rest) = bytes.split_at(first_record(bytes));
        all.push(first.to_vec());
        bytes = rest;
    }
    all
}

/// The place of a node's first end and their count, if the bytes are a node's of which all is there.
fn ends_in(record: &[u8]) -> Option<(usize, usize)> {
    let form = Form::of(*record.get(2)?).ok()?;
    let at = 8 + form.count_bytes;
    let count = record.get(8..at)?;
    let count = count
        .iter()
        .fold(0, |all, byte| 256 * all + usize::from(*byte));
    let whole = record[3] == 1 && record.len() == at + END_BYTES * count;
    whole.then_some((at, count))
}

/// The same record, its ends in another order.
fn with_ends_shuffled(random: &mut Random, record: &[u8]) -> Vec<u8> {
    let Some((at, _)) = ends_in(record) else {
        return record.to_vec();
    };
    let (head, ends) = record.split_at(at);
    let mut ends: Vec<&[u8]> = ends.chunks(END_BYTES).collect();
    shuffle(random, &mut ends);
    [head, &ends.concat()].concat()
}

/// What stood for A stands for B, and the other way round. Bytes that are no record of the right length stay.
fn exchanged(record: &[u8]) -> Vec<u8> {
    let mut other = record.to_vec();
    let mut label = |at: usize| {
        for code in at + 1..at + 4 {
            other.swap(code, code + 3);
        }
    };
    match (ends_in(record), record) {
        (Some((at, count)), _) => {
            (0..count).for_each(|end| label(at + END_BYTES * end + 8));
            other.swap(4, 5);
            other.swap(6, 7);
        }
        (None, [_, _, _, 2, ..]) if record.len() == 11 => label(4),
        _ => {}
    }
    other
}

fn transposed<T: Copy>(nine: &[T; 9]) -> [T; 9] {
    std::array::from_fn(|place| nine[3 * (place % 3) + place / 3])
}

/// Nodes of either version in many orders of their ends, all on the same cells.
fn ends_in_any_order(run: &mut Run) {
    run.begin("symmetry: record, the ends of a node in many orders");
    for count in COUNTS {
        for version in [Version::One, Version::Two] {
            if count > version.form().most_ends {
                continue;
            }
            for _ in 0..run.times(8) {
                let first = accepted_node_of(&mut run.random, version, count);
                let cells = run.random.cells();
                let mut calls = vec![PlanCall::on_cells(PlanOp::Record, cells, first.clone())];
                for _ in 0..ORDERS {
                    let other = with_ends_shuffled(&mut run.random, &first);
                    calls.push(PlanCall::on_cells(PlanOp::Record, cells, other));
                }
                let replies = run.answered(&calls);
                for reply in &replies {
                    assert_eq!(reply.word, replies[0].word, "the same bytes used");
                    assert_eq!(reply.out, replies[0].out, "the same nine cells");
                }
            }
        }
    }
}

fn ask_floor(run: &mut Run, cells: [u8; 9], floors: Vec<Vec<u8>>) -> Vec<(u32, FloorRoom)> {
    let call = |bytes| PlanCall::floor(PlanOp::Floor, cells, bytes);
    let calls: Vec<_> = floors.into_iter().map(call).collect();
    let replies = run.answered(&calls);
    let room = |reply: &PlanReply| (reply.word, FloorRoom::from_le_bytes(&reply.out));
    replies.iter().map(room).collect()
}

/// Floors of records of both versions: the records in another order, and the ends of every node too.
fn records_in_any_order(run: &mut Run) {
    run.begin("symmetry: floor, its records and the ends of its nodes in other orders");
    for number in 0..run.times(6_000) {
        let count = 2 + run.random.below(if number % 20 == 0 { 60 } else { 8 });
        let first = floor_of(&mut run.random, Version::either, count);
        let mut floors = vec![first.clone()];
        for _ in 0..4 {
            let mut other = records(&first);
            shuffle(&mut run.random, &mut other);
            floors.push(other.concat());
            let mut ends = |record: &Vec<u8>| with_ends_shuffled(&mut run.random, record);
            floors.push(other.iter().map(&mut ends).collect::<Vec<_>>().concat());
        }
        let cells = run.random.cells();
        let replies = ask_floor(run, cells, floors);
        for (word, room) in &replies {
            assert_eq!(*word, replies[0].0, "accepted");
            assert_eq!(
                room.answer, replies[0].1.answer,
                "as many bytes and records"
            );
            assert_eq!(room.cells, replies[0].1.cells, "the same nine cells");
        }
    }
}

/// Floors good and damaged, A and B exchanged in every record, from the transposed start: the same word, the same count
/// of bytes and records, the transposed cells. Exchanged twice they are the bytes given.
fn sides_exchanged(run: &mut Run) {
    run.begin("symmetry: floor, good and damaged, A and B exchanged from a transposed start");
    for number in 0..run.times(30_000) {
        let bytes = match number % 3 {
            0 => any_floor_of(&mut run.random, Version::either, 6, true),
            1 => any_floor_of(&mut run.random, Version::either, 6, false),
            _ => edge_record_of(&mut run.random, Version::Two),
        };
        let cells = match number % 5 {
            0 => run.random.cells_above_3(),
            _ => run.random.cells(),
        };
        let twice = |record: &Vec<u8>| exchanged(&exchanged(record));
        let all = records(&bytes);
        assert_eq!(all.iter().map(twice).collect::<Vec<_>>().concat(), bytes);
        let other = all
            .iter()
            .map(|record| exchanged(record))
            .collect::<Vec<_>>()
            .concat();
        let first = ask_floor(run, cells, vec![bytes]);
        let second = ask_floor(run, transposed(&cells), vec![other]);
        let ((word, room), (other_word, other_room)) = (&first[0], &second[0]);
        assert_eq!(word, other_word, "accepted, or refused by the same number");
        assert_eq!(room.answer, other_room.answer, "as many bytes and records");
        assert_eq!(
            transposed(&room.cells),
            other_room.cells,
            "the transposed cells"
        );
    }
}

/// Has calls answered and counted at once, two by two.
fn answered(run: &mut Run, pairs: &[[Call; 2]]) -> Vec<[Reply; 2]> {
    let calls = pairs.as_flattened();
    let mut replies = run.library.answer(calls).into_iter();
    let mut take = |call: &Call| {
        let reply = replies.next().expect("one for each");
        run.tally.take(run.kind, call, &reply);
        reply
    };
    let take_both = |pair: &[Call; 2]| pair.each_ref().map(&mut take);
    pairs.iter().map(take_both).collect()
}

/// So many matrices at once, with the number of each.
fn every_matrix(step: usize) -> impl Iterator<Item = Vec<[u8; 9]>> {
    let starts = (0..MATRICES).step_by(512 * step);
    starts.map(move |start| {
        let end = MATRICES.min(start + 512 * step);
        (start..end).step_by(step).map(matrix_by_number).collect()
    })
}

/// Every matrix and its transposed: all eleven predicates; and of some the verdict of each of the ten that have a partner.
fn answers_transposed(run: &mut Run) {
    run.begin("symmetry: predicates of every matrix and its transposed");
    for matrices in every_matrix(1) {
        let both = |cells: &[u8; 9]| {
            [*cells, transposed(cells)].map(|cells| Call::plain(Op::Predicates, cells))
        };
        let pairs: Vec<_> = matrices.iter().map(both).collect();
        for [first, second] in answered(run, &pairs) {
            let says = |reply: &Reply, which: u32| reply.word >> which & 1;
            for (which, partner) in PARTNERS.iter().enumerate() {
                if let Some(partner) = partner {
                    assert_eq!(says(&first, which as u32), says(&second, *partner));
                }
            }
            let several: u32 = [8, 9, 10].map(|which| says(&first, which)).iter().sum();
            assert!(
                several <= 1,
                "touches, crosses and overlaps exclude each other"
            );
        }
    }
    run.begin("symmetry: verdicts of every seventh matrix and its transposed");
    for matrices in every_matrix(7) {
        for (which, partner) in PARTNERS.iter().enumerate() {
            let Some(partner) = partner else { continue };
            let both = |cells: &[u8; 9]| {
                let second = Call::verdict(transposed(cells), *partner);
                [Call::verdict(*cells, which as u32), second]
            };
            let pairs: Vec<_> = matrices.iter().map(both).collect();
            for [first, second] in answered(run, &pairs) {
                assert_eq!(first.word, second.word);
            }
        }
    }
}

/// Good patterns with their letters transposed: what `matches` says, and the verdict.
fn patterns_transposed(run: &mut Run) {
    run.begin(
        "symmetry: patterns and their verdicts, letters transposed, of a matrix and its transposed",
    );
    for op in [Op::Matches, Op::VerdictPattern] {
        for _ in 0..run.times(60) {
            let mut pairs = Vec::new();
            for _ in 0..1000 {
                let (cells, pattern) = (run.random.cells(), good_pattern(&mut run.random));
                let second = Call::with_text(op, transposed(&cells), &transposed(&pattern));
                pairs.push([Call::with_text(op, cells, &pattern), second]);
            }
            for [first, second] in answered(run, &pairs) {
                assert_eq!(first.word, second.word);
            }
        }
    }
}
