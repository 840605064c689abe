//! A sample of the crate's answers as lines of text, for a small program that replays them without Rust.
//!
//! Our library isn't asked. Numbers and places of refusals are document 01's, since the crate has none; where the crate
//! can't be asked, or its answer is a listed difference, the rules alone answer, and the head of the file says so.

use crate::asked::{self, Said};
use crate::listed;
use crate::ours::{Call, Op};
use crate::pieces::{
    PATTERN_LETTERS, SEVERAL_BYTES, TEXT_LETTERS, agreeing_pattern, disagreeing, good_pattern,
    good_text, of_wrong_count, with_character,
};
use crate::random::Random;
use crate::rule::{self, Outcome};
use crate::sample_again;
use crate::sample_floors;
use crate::sample_line::{self, Case};
use crate::sample_masks;
use crate::sample_outlines;
use crate::sample_plans;
use crate::sample_regions;
use crate::sample_reports;
use crate::sample_traced;
use crate::sample_verdicts;
use crate::sample_versions;
use crate::sample_wkt;

/// Never another one: the file must come out the same every time.
const SEED: u64 = 1;
/// Of its own, so that the lines above don't hang on those below.
const MORE_SEED: u64 = 5;
/// The longest text that is asked with.
const ROOM: usize = 12;

/// Document 01's own matrices.
const KNOWN: [&[u8; 9]; 12] = [
    b"FFFFFFFF2",
    b"FFFFFFFFF",
    b"212101212",
    b"0F1FF0102",
    b"2FFF1FFF2",
    b"FF2F01212",
    b"212FF1FF2",
    b"0FFFFF212",
    b"F0FFFF212",
    b"FF0FFF212",
    b"0FFFFFFF2",
    b"FF0FFF0F2",
];

const HEAD: &str = "\
# P misonkandi_predicates. Q misonkandi_predicate, a its row. H misonkandi_predicate_named, the name given.
# M misonkandi_matches, the pattern given. T misonkandi_from_text, R misonkandi_raise_from_text, the text given.
# O misonkandi_to_text. X misonkandi_transpose. S misonkandi_set, L misonkandi_set_at_least, a and b the position codes.
# P to L: the answers of geo 0.33.1's intersection_matrix.rs, compiled unchanged. Document 01's rules (oracle/src/rule.rs)
# alone answer what the crate can't be asked: X, H, a row above 10, bytes that aren't UTF-8, S with a none, codes above 3;
# and where a raising is refused the cells after are those given, where the crate keeps the cells already raised.
# M: the crate's answer to a wholly good pattern. To a bad one request R-5's, in oracle/src/rule.rs: refused whatever the
# cells, where the crate says no if a cell before the bad byte disagrees.
";

/// `sample`, or `sample again FILE`.
pub fn main() {
    asked::hush_the_crate();
    if let Some(path) = std::env::args().nth(2) {
        return sample_again::main(&path);
    }
    let mut random = Random::new(SEED);
    let mut lines = format!("{}{HEAD}", sample_line::HEAD);
    for call in calls(&mut random) {
        write_line(&mut lines, &call);
    }
    let mut plans = sample_plans::calls(&mut random);
    for call in more_calls(&mut Random::new(MORE_SEED)) {
        write_line(&mut lines, &call);
    }
    lines.push_str(sample_verdicts::HEAD);
    for call in sample_verdicts::calls() {
        write_line(&mut lines, &call);
    }
    lines.push_str(sample_plans::HEAD);
    plans.extend(sample_plans::more_calls());
    plans.extend(sample_reports::calls());
    let mut met = sample_plans::write_lines(&mut lines, &plans);
    for (head, calls) in [
        (sample_outlines::HEAD, sample_outlines::calls()),
        (sample_wkt::HEAD, sample_wkt::calls()),
        (sample_floors::HEAD, sample_floors::calls()),
        (sample_versions::HEAD, sample_versions::calls()),
        (sample_traced::HEAD, sample_traced::calls()),
    ] {
        lines.push_str(head);
        met.extend(sample_plans::write_lines(&mut lines, &calls));
    }
    lines.push_str(sample_regions::HEAD);
    for call in sample_regions::calls() {
        write_line(&mut lines, &call);
    }
    met.extend(sample_plans::write_lines(
        &mut lines,
        &sample_regions::written(),
    ));
    sample_plans::check_met(&met);
    lines.push_str(sample_masks::HEAD);
    sample_masks::write_lines(&mut lines);
    print!("{lines}");
}

fn calls(random: &mut Random) -> Vec<Call> {
    let mut calls = predicates(random);
    calls.extend(matches(random));
    calls.extend(texts(random, Op::FromText));
    calls.extend(texts(random, Op::Raise));
    calls.extend(changes(random, Op::Set));
    calls.extend(changes(random, Op::SetAtLeast));
    calls
}

/// A matrix by its letters.
fn by_letters(letters: &[u8; 9]) -> [u8; 9] {
    rule::outcome(&Call::with_text(Op::FromText, [0; 9], letters)).nine
}

/// Document 01's own matrices, then random ones, every second of them with many F so that each predicate holds often.
fn predicates(random: &mut Random) -> Vec<Call> {
    let mut matrices = KNOWN.map(by_letters).to_vec();
    for number in 0..640 {
        let mut cells = random.cells();
        if number % 2 == 0 {
            let kept = random.next();
            for (place, cell) in cells.iter_mut().enumerate() {
                *cell *= (kept >> place & 1) as u8;
            }
        }
        matrices.push(cells);
    }
    let call = |cells| Call::plain(Op::Predicates, cells);
    matrices.into_iter().map(call).collect()
}

fn matches(random: &mut Random) -> Vec<Call> {
    let call = |cells, pattern: &[u8]| Call::with_text(Op::Matches, cells, pattern);
    // P5 and P6
    let mut calls = vec![
        call(by_letters(b"FFFFFFFF2"), b"T*X******"),
        call(by_letters(b"212101212"), b"T*X******"),
    ];
    for _ in 0..300 {
        let cells = random.cells();
        calls.push(call(cells, &agreeing_pattern(random, &cells)));
        let mut almost = agreeing_pattern(random, &cells);
        let place = random.below(9);
        almost[place] = disagreeing(random, cells[place]);
        calls.push(call(cells, &almost));
    }
    for _ in 0..60 {
        let cells = random.cells();
        calls.push(call(cells, &good_pattern(random)));
    }
    calls.extend(matches_with_a_bad_byte(random));
    for count in (0..=ROOM).filter(|count| *count != 9) {
        for _ in 0..5 {
            let pattern = of_wrong_count(random, &PATTERN_LETTERS, count);
            calls.push(call(random.cells(), &pattern));
        }
    }
    calls
}

/// A bad byte at each place, all else agreeing, and behind a cell that disagrees; then characters of several bytes.
fn matches_with_a_bad_byte(random: &mut Random) -> Vec<Call> {
    let mut calls = Vec::new();
    let mut add = |cells: [u8; 9], mut pattern: [u8; 9], place: usize, random: &mut Random| {
        calls.push(Call::with_text(Op::Matches, cells, &pattern));
        if place > 0 {
            let earlier = random.below(place);
            pattern[earlier] = disagreeing(random, cells[earlier]);
            calls.push(Call::with_text(Op::Matches, cells, &pattern));
        }
    };
    for place in 0..9 {
        for bad in [
            0, b' ', b')', b'+', b'/', b'3', b'E', b'G', b'S', b'U', b'e', b'g', b's', b'u', 127,
        ] {
            let cells = random.cells();
            let mut pattern = agreeing_pattern(random, &cells);
            pattern[place] = bad;
            add(cells, pattern, place, random);
        }
        for character in SEVERAL_BYTES {
            let cells = random.cells();
            let pattern = agreeing_pattern(random, &cells);
            if let Some(pattern) = with_character(&pattern, place, character) {
                add(cells, pattern, place, random);
            }
        }
    }
    calls
}

fn texts(random: &mut Random, op: Op) -> Vec<Call> {
    let mut calls = Vec::new();
    for _ in 0..220 {
        let cells = random.cells();
        calls.push(Call::with_text(op, cells, &good_text(random)));
    }
    for place in 0..9 {
        for bad in [0, b'*', b'/', b'3', b'E', b'G', b'T', b'f', b't', 127] {
            let mut text = good_text(random);
            text[place] = bad;
            calls.push(Call::with_text(op, random.cells(), &text));
        }
        for character in SEVERAL_BYTES {
            if let Some(text) = with_character(&good_text(random), place, character) {
                calls.push(Call::with_text(op, random.cells(), &text));
            }
        }
    }
    for count in (0..=ROOM).filter(|count| *count != 9) {
        for _ in 0..5 {
            let text = of_wrong_count(random, &TEXT_LETTERS, count);
            calls.push(Call::with_text(op, random.cells(), &text));
        }
    }
    calls
}

fn changes(random: &mut Random, op: Op) -> Vec<Call> {
    let mut calls = Vec::new();
    for a in 0..4 {
        for b in 0..4 {
            for dimension in 0..4 {
                for _ in 0..3 {
                    calls.push(Call::at(op, random.cells(), a, b, dimension));
                }
            }
        }
    }
    for bad in [4, 5, 128, 255] {
        for other in [0, 1, 2, 3, 4, 255] {
            let dimension = random.below(4) as u8;
            calls.push(Call::at(op, random.cells(), bad, other, dimension));
            calls.push(Call::at(op, random.cells(), other, bad, dimension));
        }
    }
    calls
}

/// Calls that the lines above have too few of, or none.
fn more_calls(random: &mut Random) -> Vec<Call> {
    let mut calls = rows(random);
    calls.extend(names(random));
    for op in [Op::Predicates, Op::ToText, Op::Transpose] {
        let known = KNOWN.map(by_letters).into_iter();
        let several = (0..60).map(|_| random.cells());
        let mut matrices: Vec<_> = known.chain(several).collect();
        matrices.extend((0..30).map(|_| random.cells_above_3()));
        calls.extend(matrices.into_iter().map(|cells| Call::plain(op, cells)));
    }
    calls.extend(above_3(random));
    calls.extend(not_utf_8(random));
    calls
}

/// Each predicate on its own, yes and no; then rows that there aren't.
fn rows(random: &mut Random) -> Vec<Call> {
    let mut calls = Vec::new();
    for which in 0..11 {
        let mut kept = [0; 2];
        while kept != [15, 15] {
            let mut cells = random.cells();
            let many_f = random.next() | random.pick(&[0, !0]);
            for (place, cell) in cells.iter_mut().enumerate() {
                *cell *= (many_f >> place & 1) as u8;
            }
            let call = Call::predicate(cells, which);
            let answer = rule::outcome(&call).word as usize;
            if kept[answer] < 15 {
                kept[answer] += 1;
                calls.push(call);
            }
        }
        calls.push(Call::predicate(random.cells_above_3(), which));
    }
    let none = [
        11,
        12,
        13,
        16,
        27,
        128,
        255,
        256,
        261,
        65_536,
        65_541,
        1 << 31,
        (1 << 31) + 5,
        u32::MAX - 11,
        u32::MAX,
    ];
    for which in none {
        calls.push(Call::predicate(random.cells(), which));
        calls.push(Call::verdict(random.cells(), which));
    }
    calls
}

/// Each name, and texts near it: shorter, longer, with a capital, with another byte.
fn names(random: &mut Random) -> Vec<Call> {
    let mut texts: Vec<Vec<u8>> = vec![
        Vec::new(),
        b"relate".to_vec(),
        b"is_within".to_vec(),
        b"equals".to_vec(),
    ];
    for name in rule::NAMES {
        let name = name.as_bytes();
        texts.push(name.to_vec());
        texts.push(name[1..].to_vec());
        texts.push(name[..name.len() - 1].to_vec());
        texts.push([name, b"\0"].concat());
        texts.push([name, b"s"].concat());
        texts.push([b" ", name].concat());
        texts.push(name.to_ascii_uppercase());
        for place in [0, random.below(name.len()), name.len() - 1] {
            let mut text = name.to_vec();
            text[place] ^= random.pick(&[1, 32, 128]);
            texts.push(text);
        }
    }
    texts.iter().map(|text| Call::named(text)).collect()
}

/// Numbers above 3 in the cells, accepted and refused.
fn above_3(random: &mut Random) -> Vec<Call> {
    let mut calls = Vec::new();
    for _ in 0..20 {
        let cells = random.cells_above_3();
        let read = rule::read(&cells);
        calls.push(Call::with_text(
            Op::Matches,
            cells,
            &agreeing_pattern(random, &read),
        ));
        calls.push(Call::with_text(Op::Matches, cells, &good_pattern(random)));
        calls.push(Call::with_text(Op::Raise, cells, &good_text(random)));
        let mut bad = good_text(random);
        bad[random.below(9)] = b'T';
        calls.push(Call::with_text(Op::Raise, cells, &bad));
        calls.push(Call::with_text(Op::FromText, cells, &bad));
        for op in [Op::Set, Op::SetAtLeast] {
            let (a, b) = (random.below(5) as u32, random.below(5) as u32);
            calls.push(Call::at(op, cells, a, b, random.byte()));
        }
    }
    calls
}

/// A byte of 128 and up at each place, alone.
fn not_utf_8(random: &mut Random) -> Vec<Call> {
    let mut calls = Vec::new();
    for place in 0..9 {
        for bad in [128, 170, 191, 255] {
            let cells = random.cells();
            for op in [Op::Matches, Op::VerdictPattern, Op::FromText, Op::Raise] {
                let mut text = good_text(random);
                if op == Op::Matches && random.below(2) == 0 {
                    text = agreeing_pattern(random, &cells);
                }
                text[place] = bad;
                calls.push(Call::with_text(op, cells, &text));
            }
        }
    }
    calls
}

/// The rule's answer, which the crate's must agree with if it can be asked, but for the listed differences.
fn answer(call: &Call) -> Outcome {
    let due = rule::outcome(call);
    if let Some(said) = asked::said(call) {
        let listed = listed::difference(call, &due, &said).is_some();
        assert!(
            listed || agrees(call, &due, &said),
            "the crate and document 01 differ: {call:?}"
        );
    }
    due
}

fn agrees(call: &Call, due: &Outcome, said: &Said) -> bool {
    let due_nine = if call.op == Op::ToText {
        due.nine
    } else {
        rule::read(&due.nine)
    };
    said.answer.agrees_with(due.word) && said.nine.is_none_or(|nine| nine == due_nine)
}

/// The letter of a call, and whether it may write nine bytes.
fn letter(op: Op) -> (char, bool) {
    match op {
        Op::Predicates => ('P', false),
        Op::Predicate => ('Q', false),
        Op::PredicateNamed => ('H', false),
        Op::Matches => ('M', false),
        Op::FromText => ('T', true),
        Op::Raise => ('R', true),
        Op::ToText => ('O', true),
        Op::Set => ('S', true),
        Op::SetAtLeast => ('L', true),
        Op::Transpose => ('X', true),
        Op::Verdict => ('V', false),
        Op::VerdictPattern => ('W', false),
        Op::Region => ('r', false),
        Op::RegionNamed => ('h', false),
    }
}

fn write_line(lines: &mut String, call: &Call) {
    let due = answer(call);
    let (letter, writes) = letter(call.op);
    let case = Case {
        cells: call.cells,
        word: due.word,
        a: call.a,
        b: call.b,
        dimension: call.dimension,
        given: call.text(),
        due: if writes { &due.nine } else { &[] },
    };
    case.write(lines, letter);
}
