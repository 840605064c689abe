//! The sample's lines of bundles, stars, plan records and stored reports, and the writing of these, of outlines, of
//! shapes' texts and of floors.

use crate::asked_star::{self, PlanSaid};
use crate::listed;
use crate::ours::floor_room::{self, FloorRoom};
use crate::ours::plans::{self, PlanCall, PlanOp};
use crate::ours::shape_room::ShapeRoom;
use crate::ours::traced_room::TracedRoom;
use crate::plan_pieces::{
    damage_ends, damaged_record, edge_record, end, ends, node_record, record, turned,
    with_bytes_after,
};
use crate::random::Random;
use crate::rule;
use crate::rule_plan::{self, PlanOutcome, REACHABLE};
use crate::rule_report::long;
use crate::rule_star::{END_BYTES, LABEL_BYTES, SINGLE_SIDE};
use crate::sample_line::{Case, MOST_CONVERTED, MOST_GIVEN};

/// The most bytes of the small records, and the most ends of the small stars.
const SMALL_RECORD: usize = 64;
const SMALL_STAR: usize = 4;
const START: [u8; 9] = [0, 0, 0, 0, 0, 0, 0, 0, 3];
/// Of the whole ones, so that the small ones don't hang on them.
const SEED: u64 = 7;

/// A call, and the number of a refusal that it gives.
pub type Met = (PlanOp, u32);

pub const HEAD: &str = "\
# B misonkandi_bundle, K misonkandi_star, the ends given, a and b the area codes; what they may write holds nines before.
# N misonkandi_record, the record given. D misonkandi_read_report, the report given. E misonkandi_write_report and
# F misonkandi_write_short_report, the buffer given, the offset a times 2^32 plus b. C misonkandi_convert_report, the report
# and then the buffer given, the dimension the count of the report's bytes, the offset as before; both are due.
# B, K, N: joining, completing and raising are the crate's edge_end_bundle.rs, edge_end_bundle_star.rs, label.rs,
# topology_position.rs and intersection_matrix.rs, compiled unchanged; its panic is refusal 9. Document 01 alone gives
# the reading of bytes, the other refusals, the direction order, the parity of boundary counts, and which cells one label
# and a node raise. K, N where a line bundle before the last is on the boundary and that matters: request R-6's labels and
# matrix (oracle/src/rule_star.rs), where the crate's files have only the last bundle collapse a geometry.
# D, E, F, C: document 01 and request R-3 alone (oracle/src/rule_report.rs); the crate has no reports.
";

/// About 900 records and 600 stars of few ends.
pub fn calls(random: &mut Random) -> Vec<PlanCall> {
    let mut calls = Vec::new();
    for bytes in small_records(random) {
        calls.push(on_some_cells(random, bytes));
    }
    calls.extend(small_stars(random));
    calls
}

/// Whole records and stars, up to 32 ends and beyond; bundles; reports.
pub fn more_calls() -> Vec<PlanCall> {
    let random = &mut Random::new(SEED);
    let mut calls = whole_records(random);
    calls.extend(whole_stars(random));
    calls.extend(bundles(random));
    calls.extend(reports_read(random));
    calls.extend(reports_written(random));
    calls.extend(collapsed_stars());
    calls
}

/// Stars where the first bundle collapses A, and their records, at each quarter turn: request R-6's answer is the same at
/// each but for where the labels start, the crate's isn't. docs/DIFFERENCES.md's star, then the two lines of
/// crates/worked.
fn collapsed_stars() -> Vec<PlanCall> {
    let shrunk = end((-4, 0), &[0, 2, 0, 0, 0, 0, 0]);
    let worked = [
        end((0, 2), &[1, 0, 0, 0, 2, 1, 3]),
        shrunk,
        end((0, -2), &[1, 0, 0, 0, 2, 3, 1]),
    ];
    let lines = [
        end((2, 0), &[0, 2, 0, 0, 1, 0, 0]),
        end((0, -2), &[0, 0, 0, 0, 1, 0, 0]),
    ];
    let mut calls = Vec::new();
    for (mut ends, [node_a, node_b, a, b]) in [
        (worked.concat(), [2, 2, 2, 2]),
        (lines.concat(), [2, 1, 1, 0]),
    ] {
        for _ in 0..4 {
            let head = [node_a, node_b, a, b, (ends.len() / END_BYTES) as u8];
            let bytes = record(1, &[&head[..], &ends].concat());
            calls.push(PlanCall::star(ends.clone(), a.into(), b.into()));
            calls.push(PlanCall::on_cells(PlanOp::Record, START, bytes));
            ends = turned(&ends);
        }
    }
    calls
}

/// Cells of 0 to 3, and now and then above.
fn on_some_cells(random: &mut Random, bytes: Vec<u8>) -> PlanCall {
    let cells = if random.below(20) == 0 {
        random.cells_above_3()
    } else {
        random.cells()
    };
    PlanCall::on_cells(PlanOp::Record, cells, bytes)
}

/// Good ones of both kinds, some with bytes after them; one record cut at every byte; damaged ones.
fn small_records(random: &mut Random) -> Vec<Vec<u8>> {
    let mut records = Vec::new();
    for _ in 0..90 {
        records.push(edge_record(random));
        for count in 0..4 {
            let ends = ends(random, count);
            records.push(node_record(random, &ends));
        }
    }
    for place in (0..records.len()).step_by(7) {
        records[place] = with_bytes_after(random, records[place].clone());
        records[place].truncate(SMALL_RECORD);
    }
    let two = ends(random, 2);
    let whole = node_record(random, &two);
    records.extend((0..whole.len()).map(|count| whole[..count].to_vec()));
    while records.len() < 900 {
        let bytes = damaged_record(random);
        if bytes.len() <= SMALL_RECORD {
            records.push(bytes);
        }
    }
    records
}

/// The ends of document 01's P1.
fn p1_ends() -> Vec<u8> {
    let ends = [
        end((2, 0), &[1, 0, 0, 0, 2, 1, 3]),
        end((0, 2), &[1, 2, 1, 3, 0, 0, 0]),
        end((-2, 0), &[1, 0, 0, 0, 2, 3, 1]),
        end((0, -2), &[1, 2, 3, 1, 0, 0, 0]),
    ];
    ends.concat()
}

/// Each number of ends, in bundles of their own and in shared ones; ends with a fault; an area code above 3.
fn small_stars(random: &mut Random) -> Vec<PlanCall> {
    let mut calls = vec![PlanCall::star(p1_ends(), 2, 2)];
    for number in 0..500 {
        let ends = ends(random, number % (SMALL_STAR + 1));
        calls.push(star(random, ends));
    }
    for number in 0..80 {
        let mut ends = ends(random, 1 + number % SMALL_STAR);
        damage_ends(random, &mut ends);
        calls.push(star(random, ends));
    }
    for bad in [4, 5, 255] {
        for good in [0, 1, 4] {
            let ends = end((1, 0), &[0; 7]).to_vec();
            calls.push(PlanCall::star(ends.clone(), bad, good));
            calls.push(PlanCall::star(ends, good, bad));
        }
    }
    calls
}

/// A star with good area codes.
fn star(random: &mut Random, ends: Vec<u8>) -> PlanCall {
    let (a, b) = (random.below(4) as u32, random.below(4) as u32);
    PlanCall::star(ends, a, b)
}

/// P1; each number of ends up to 32, 33 and 34; one record cut at every byte; damaged ones.
fn whole_records(random: &mut Random) -> Vec<PlanCall> {
    let p1 = [&[2, 2, 2, 2, 4][..], &p1_ends()].concat();
    let mut calls = vec![PlanCall::on_cells(PlanOp::Record, START, record(1, &p1))];
    let mut records = Vec::new();
    for count in 4..=34 {
        for _ in 0..4 {
            let ends = ends(random, count);
            records.push(node_record(random, &ends));
        }
        let ends = ends(random, count);
        let bytes = node_record(random, &ends);
        records.push(with_bytes_after(random, bytes));
    }
    let four = ends(random, 4);
    let whole = node_record(random, &four);
    records.extend((0..whole.len()).map(|count| whole[..count].to_vec()));
    let mut damaged = 0;
    while damaged < 200 {
        let bytes = damaged_record(random);
        if (SMALL_RECORD..=MOST_GIVEN).contains(&bytes.len()) {
            records.push(bytes);
            damaged += 1;
        }
    }
    for bytes in records {
        calls.push(on_some_cells(random, bytes));
    }
    calls
}

/// Each number of ends up to 34; ends with a fault; area codes above 3 beside other faults, so that their order shows;
/// bytes that are no whole ends.
fn whole_stars(random: &mut Random) -> Vec<PlanCall> {
    let mut calls = Vec::new();
    for count in 5..=34 {
        for _ in 0..3 {
            let ends = ends(random, count);
            calls.push(star(random, ends));
        }
        let mut ends = ends(random, count);
        damage_ends(random, &mut ends);
        calls.push(star(random, ends));
    }
    for bad in [4, 255, 256, 258, 65_539, u32::MAX] {
        for other in [0, 3, 7] {
            let count = random.pick(&[0, 2, 3, 33]);
            let mut ends = ends(random, count);
            damage_ends(random, &mut ends);
            calls.push(PlanCall::star(ends.clone(), bad, other));
            calls.push(PlanCall::star(ends.clone(), other, bad));
            ends.push(7);
            calls.push(PlanCall::star(ends, bad, other));
        }
    }
    for _ in 0..20 {
        let ends = no_whole_ends(random);
        calls.push(star(random, ends));
    }
    calls
}

fn no_whole_ends(random: &mut Random) -> Vec<u8> {
    let count = random.below(4);
    let mut ends = ends(random, count);
    let more = 1 + random.below(14);
    ends.extend((0..more).map(|_| random.byte()));
    ends
}

/// P14; each number of ends up to 34; ends with a fault; bytes that are no whole ends.
fn bundles(random: &mut Random) -> Vec<PlanCall> {
    let on_boundary = |count: usize| end((1, 0), &[0, 2, 0, 0, 2, 0, 0]).repeat(count);
    let mut calls = vec![
        PlanCall::bundle(on_boundary(2)),
        PlanCall::bundle(on_boundary(3)),
    ];
    for count in 0..=34 {
        for _ in 0..5 {
            calls.push(PlanCall::bundle(ends(random, count)));
        }
        let mut ends = ends(random, count);
        damage_ends(random, &mut ends);
        calls.push(PlanCall::bundle(ends));
    }
    for _ in 0..100 {
        let count = 1 + random.below(4);
        calls.push(PlanCall::bundle(ends(random, count)));
    }
    for _ in 0..20 {
        calls.push(PlanCall::bundle(no_whole_ends(random)));
    }
    calls
}

/// Good ones, some with bytes after them; one cut at every byte; each byte with a fault, and two faults.
fn reports_read(random: &mut Random) -> Vec<PlanCall> {
    let mut reports = Vec::new();
    for number in 0..60 {
        let mut bytes = long(&random.cells()).to_vec();
        if number % 2 == 0 {
            bytes = with_bytes_after(random, bytes);
        }
        reports.push(bytes);
    }
    let whole = long(&random.cells());
    reports.extend((0..whole.len()).map(|count| whole[..count].to_vec()));
    let faults = [0, 1, 2, 9, 10, 11, b'F', b'f', b'T', b'3', b'*', 200];
    for place in 0..12 {
        for fault in faults {
            let mut bytes = long(&random.cells()).to_vec();
            bytes[place] = fault;
            if random.below(4) == 0 {
                bytes.resize(300, b'F');
            }
            reports.push(bytes.clone());
            let other = random.below(12);
            bytes[other] = random.pick(&faults);
            reports.push(bytes);
        }
    }
    let call = |bytes| PlanCall::on_cells(PlanOp::ReadReport, random.nine_bytes(), bytes);
    reports.into_iter().map(call).collect()
}

/// Every offset in and around small buffers, and some near large numbers.
fn reports_written(random: &mut Random) -> Vec<PlanCall> {
    let mut calls = Vec::new();
    for count in [0, 1, 11, 12, 13, 20, 40] {
        let near = 0..=count as u64 + 2;
        let far = [
            1 << 31,
            1 << 32,
            (1 << 32) + 1,
            1 << 63,
            u64::MAX - 12,
            u64::MAX - 11,
            u64::MAX,
        ];
        for offset in near.chain(far) {
            let cells = if random.below(4) == 0 {
                random.cells_above_3()
            } else {
                random.cells()
            };
            let buffer = (0..count).map(|_| random.byte()).collect();
            calls.push(PlanCall::write_report(cells, buffer, offset));
        }
    }
    calls
}

/// The rules' outcome, which the crate's files must agree with if they can be asked, but for a listed difference.
fn outcome(call: &PlanCall) -> PlanOutcome {
    let due = rule_plan::outcome(call);
    let said = asked_star::said(call);
    let agrees = match &said {
        Some(PlanSaid::Gave { word, out }) => *word == due.word && *out == due.out,
        Some(PlanSaid::Panicked) => due.word == SINGLE_SIDE,
        None => !matches!(call.op, PlanOp::Bundle | PlanOp::Star | PlanOp::Record),
    };
    let listed = || said.and_then(|said| listed::plan_difference(call, &due, &said));
    assert!(
        agrees || listed().is_some(),
        "the crate and the rules differ: {call:?}"
    );
    due
}

fn letter(op: PlanOp) -> char {
    match op {
        PlanOp::Bundle => 'B',
        PlanOp::Star => 'K',
        PlanOp::Record => 'N',
        PlanOp::ReadReport => 'D',
        PlanOp::WriteReport => 'E',
        PlanOp::WriteShortReport => 'F',
        PlanOp::ConvertReport => 'C',
        PlanOp::PointInOutline => 'I',
        PlanOp::ReadWkt => 'J',
        PlanOp::WriteWkt => 'U',
        PlanOp::Floor => 'A',
        PlanOp::Pieces => 'Y',
        PlanOp::ConvertRecord => 'Z',
        PlanOp::RegionName => 'n',
        PlanOp::TracedRecord => 'x',
        PlanOp::TracedFloor => 'f',
        PlanOp::TracedTranspose => 't',
        PlanOp::OneByOne => unreachable!("the lines of records have these"),
    }
}

/// Writes the lines, and answers which refusals they have.
pub fn write_lines(lines: &mut String, calls: &[PlanCall]) -> Vec<Met> {
    let mut met = Vec::new();
    for call in calls {
        let due = outcome(call);
        met.extend(rule::number(due.word).map(|number| (call.op, number)));
        write_line(lines, call, &due);
    }
    met
}

/// The lines must have each number that each call can give. No line has room for the 601 ends that a call refuses with 5;
/// `compare` has them.
pub fn check_met(met: &[Met]) {
    for (op, numbers) in REACHABLE {
        let too_long = |number| number == 5 && matches!(op, PlanOp::Bundle | PlanOp::Star);
        let all = numbers
            .iter()
            .all(|number| too_long(*number) || met.contains(&(op, *number)));
        assert!(all, "{}: a refusal isn't in the sample", op.name());
    }
}

/// A call's numbers have their low byte first, a line's their high byte.
fn high_bytes_first(lent: &[u8]) -> Vec<u8> {
    let numbers = plans::numbers(lent);
    numbers.iter().flat_map(|x| x.to_be_bytes()).collect()
}

/// What a line has as given, and as due. Where a call is lent two of them, a report or numbers and a buffer, the one
/// stands after the other.
fn given_and_due(call: &PlanCall, due: &PlanOutcome) -> (Vec<u8>, Vec<u8>) {
    let given = call.bytes.clone();
    match call.op {
        PlanOp::Bundle | PlanOp::Record | PlanOp::ReadReport => (given, due.out.clone()),
        // behind the labels stands what was lent, which a line leaves off
        PlanOp::Star if !rule::refuses(due.word) => {
            let labels = LABEL_BYTES * due.word as usize;
            (given, due.out[..labels].to_vec())
        }
        PlanOp::Star => (given, due.out.clone()),
        PlanOp::WriteReport | PlanOp::WriteShortReport | PlanOp::RegionName => {
            (given, due.bytes.clone())
        }
        PlanOp::ConvertReport => {
            let both = [given, call.out.clone()].concat();
            assert!(both.len() <= MOST_CONVERTED, "too long for replay");
            (both, [&due.bytes[..], &due.out].concat())
        }
        PlanOp::ConvertRecord => {
            let both = [given, call.out.clone()].concat();
            (both, [&due.bytes[..], &due.out].concat())
        }
        PlanOp::PointInOutline => (high_bytes_first(&given), Vec::new()),
        PlanOp::ReadWkt => (given, ShapeRoom::from_le_bytes(&due.out).to_be_bytes()),
        PlanOp::WriteWkt => (
            [high_bytes_first(&call.out), given].concat(),
            [high_bytes_first(&due.out), due.bytes.clone()].concat(),
        ),
        PlanOp::Floor | PlanOp::OneByOne | PlanOp::Pieces => {
            (given, FloorRoom::from_le_bytes(&due.out).to_be_bytes())
        }
        PlanOp::TracedRecord | PlanOp::TracedFloor | PlanOp::TracedTranspose => {
            let (lent, left) = (&call.out, &due.out);
            let [lent, left] = [lent, left].map(|room| TracedRoom::from_le_bytes(room));
            let mut all = [&left.cells[..], &left.numbers_high_first()].concat();
            if call.op == PlanOp::TracedFloor {
                all.extend(left.answer.map(u64::to_be_bytes).as_flattened());
            }
            ([lent.numbers_high_first(), given].concat(), all)
        }
    }
}

fn write_line(lines: &mut String, call: &PlanCall, due: &PlanOutcome) {
    let (given, left) = given_and_due(call, due);
    let mut case = Case {
        word: due.word,
        a: (call.offset >> 32) as u32,
        b: call.offset as u32,
        given: &given,
        due: &left,
        ..Case::default()
    };
    match call.op {
        PlanOp::Bundle | PlanOp::Star | PlanOp::PointInOutline => {
            (case.a, case.b) = (call.a, call.b);
        }
        PlanOp::Record | PlanOp::ReadReport | PlanOp::WriteReport | PlanOp::WriteShortReport => {
            case.cells = call.cells();
        }
        PlanOp::ConvertReport => case.dimension = call.bytes.len() as u8,
        PlanOp::ConvertRecord => {
            assert_eq!(case.a, 0, "an offset of four bytes");
            case.a = call.bytes.len() as u32;
        }
        PlanOp::ReadWkt => {}
        PlanOp::RegionName => case.dimension = call.a as u8,
        PlanOp::WriteWkt => {
            case.cells[0] = u8::try_from(call.a).expect("a kind of one byte");
            case.dimension = call.numbers().len() as u8;
        }
        PlanOp::Floor | PlanOp::OneByOne => {
            case.cells = FloorRoom::from_le_bytes(&call.out).cells;
        }
        PlanOp::Pieces => {
            case.cells = FloorRoom::from_le_bytes(&call.out).cells;
            case.dimension = floor_room::counts(&call.out)[0] as u8;
        }
        PlanOp::TracedRecord | PlanOp::TracedFloor | PlanOp::TracedTranspose => {
            case.cells = TracedRoom::from_le_bytes(&call.out).cells;
        }
    }
    case.write(lines, letter(call.op));
}
