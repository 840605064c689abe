//! The sample's lines of verdicts.

use crate::ours::{Call, Op};
use crate::pieces::{
    PATTERN_LETTERS, SEVERAL_BYTES, good_pattern, in_reach, of_wrong_count, out_of_reach, settled,
    with_character,
};
use crate::random::Random;
use crate::rule;

/// Of its own, so that other lines don't hang on these.
const SEED: u64 = 3;
/// The longest text that a line has room for.
const ROOM: usize = 12;
/// How many matrices are drawn for a predicate, and how many of each answer are kept.
const DRAWN: usize = 2000;
const KEPT: usize = 8;
/// How many matrices are drawn for a predicate and a cell, and how many pairs kept whose verdicts differ by that cell.
const DRAWN_PAIRS: usize = 4000;
const KEPT_PAIRS: usize = 4;

pub const HEAD: &str = "\
# V misonkandi_verdict, a the predicate's row. W misonkandi_verdict_pattern, the pattern given.
# V and W: by the crate's answers to every matrix that is at least as large in all cells.
";

pub fn calls() -> Vec<Call> {
    let random = &mut Random::new(SEED);
    let mut calls = predicates(random);
    calls.extend(patterns(random));
    calls.extend(letters(random));
    calls.extend(bad_patterns(random));
    calls
}

/// Cells of all kinds, with few F and with many; now and then one above 3.
fn cells(random: &mut Random) -> [u8; 9] {
    let mut cells = random.cells();
    if random.below(16) == 0 {
        cells = random.cells_above_3();
    }
    let kept = random.next() | random.pick(&[0, 0, !0]);
    for (place, cell) in cells.iter_mut().enumerate() {
        *cell *= (kept >> place & 1) as u8;
    }
    cells
}

/// Each answer of each predicate, some matrices each; each cell that decides; then numbers without a predicate.
fn predicates(random: &mut Random) -> Vec<Call> {
    let mut calls = Vec::new();
    for which in 0..11 {
        let mut kept = [0; 3];
        for _ in 0..DRAWN {
            let call = Call::verdict(cells(random), which);
            let answer = rule::outcome(&call).word as usize;
            if kept[answer] < KEPT {
                kept[answer] += 1;
                calls.push(call);
            }
        }
        let answers = kept.iter().filter(|count| **count == KEPT).count();
        assert_eq!(
            answers, 2,
            "a predicate is open or has one verdict for good"
        );
    }
    for which in 0..11 {
        for place in 0..9 {
            calls.extend(decided_by(random, which, place));
        }
    }
    for which in [11, 12, 13, 16, 27, 128, 255] {
        calls.push(Call::verdict(cells(random), which));
    }
    calls
}

/// Pairs of matrices that differ in one cell, and in their verdicts.
fn decided_by(random: &mut Random, which: u32, place: usize) -> Vec<Call> {
    let mut calls = Vec::new();
    for _ in 0..DRAWN_PAIRS {
        let one = cells(random);
        let mut other = one;
        other[place] = random.below(4) as u8;
        let pair = [one, other].map(|cells| Call::verdict(cells, which));
        let [answer, others] = [&pair[0], &pair[1]].map(|call| rule::outcome(call).word);
        if answer != others && calls.len() < 2 * KEPT_PAIRS {
            calls.extend(pair);
        }
    }
    calls
}

fn call(cells: [u8; 9], pattern: &[u8]) -> Call {
    Call::with_text(Op::VerdictPattern, cells, pattern)
}

/// P7 and P8; then letters that the cells agree with for good, or still can, or can't any more.
fn patterns(random: &mut Random) -> Vec<Call> {
    let start = [0, 0, 0, 0, 0, 0, 0, 0, 3];
    let mut inside = start;
    inside[0] = 1;
    let mut calls = vec![
        call(start, b"T*X******"),
        call(start, b"FF*FF****"),
        call(inside, b"FF*FF****"),
    ];
    for _ in 0..30 {
        let given = cells(random);
        let mut read = rule::read(&given);
        calls.push(call(given, &read.map(|cell| settled(random, cell))));
        let pattern = read.map(|cell| in_reach(random, cell));
        calls.push(call(given, &pattern));
        let place = random.below(9);
        read[place] = read[place].max(1);
        let mut pattern = pattern;
        pattern[place] = out_of_reach(random, read[place]);
        calls.push(call(read, &pattern));
        calls.push(call(given, &good_pattern(random)));
    }
    calls
}

/// Each letter on each dimension at each place; the other letters are settled, so that this one decides.
fn letters(random: &mut Random) -> Vec<Call> {
    let mut calls = Vec::new();
    for place in 0..9 {
        for letter in PATTERN_LETTERS {
            for cell in 0..4 {
                let mut given = random.cells();
                given[place] = cell;
                let mut pattern = given.map(|cell| settled(random, cell));
                pattern[place] = letter;
                calls.push(call(given, &pattern));
            }
        }
    }
    calls
}

/// A bad byte at each place, also behind a letter out of reach; characters of several bytes; wrong counts.
fn bad_patterns(random: &mut Random) -> Vec<Call> {
    let mut calls = Vec::new();
    for place in 0..9 {
        for bad in [0, b' ', b'+', b'/', b'3', b'E', b'U', b'g', b'x', 127] {
            let given = cells(random);
            let mut pattern = good_pattern(random);
            pattern[place] = bad;
            calls.push(call(given, &pattern));
        }
        for character in SEVERAL_BYTES {
            let given = cells(random);
            if let Some(pattern) = with_character(&good_pattern(random), place, character) {
                calls.push(call(given, &pattern));
            }
        }
    }
    for count in (0..=ROOM).filter(|count| *count != 9) {
        for _ in 0..5 {
            let pattern = of_wrong_count(random, &PATTERN_LETTERS, count);
            calls.push(call(cells(random), &pattern));
        }
    }
    calls
}
