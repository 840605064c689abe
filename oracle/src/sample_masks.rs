//! The sample's lines of masks and packed matrices, and of all eleven verdicts, by document 01's rules and the crate.

use crate::asked;
use crate::ours::{Call, Op};
use crate::pieces::{
    PATTERN_LETTERS, agreeing_pattern, bad_byte, good_pattern, in_reach, number_of_matrix,
    of_wrong_count, settled,
};
use crate::random::Random;
use crate::rule;
use crate::rule_verdict;
use crate::sample_line::Case;

/// Of its own, so that the lines above don't hang on these.
const SEED: u64 = 21;
/// What the four masks hold before the call.
const HELD: u32 = 0x0909_0909;

pub const HEAD: &str = "\
# m misonkandi_masks, the pattern given, into four words of b: the word is its refusal; or else 4 times the verdict and
# the answer of match to the room a, by misonkandi_masks_verdict and misonkandi_masks_match, the calls on many rooms
# and misonkandi_masks_count. p misonkandi_pack of the cells lent; due are the nine of misonkandi_unpack of a.
# v misonkandi_verdicts, the eleven numbers due.
# m: matches by the crate; verdicts by its answers to every matrix that is at least as large in all cells.
";

pub fn write_lines(lines: &mut String) {
    let random = &mut Random::new(SEED);
    for number in 0..300 {
        let cells = random.cells();
        let pattern = match number % 4 {
            0 => agreeing_pattern(random, &cells),
            1 => cells.map(|cell| in_reach(random, cell)),
            2 => cells.map(|cell| settled(random, cell)),
            _ => good_pattern(random),
        };
        masks(lines, random, &cells, &pattern);
    }
    for place in 0..9 {
        for letter in PATTERN_LETTERS {
            let mut pattern = *b"*********";
            pattern[place] = letter;
            let cells = random.cells();
            masks(lines, random, &cells, &pattern);
        }
        let mut pattern = good_pattern(random);
        pattern[place] = bad_byte(random);
        masks(lines, random, &[0; 9], &pattern);
    }
    for count in [0, 1, 8, 10, 11] {
        let pattern = of_wrong_count(random, &PATTERN_LETTERS, count);
        masks(lines, random, &[0; 9], &pattern);
    }
    for number in 0..60 {
        let cells = match number % 3 {
            0 => random.cells_above_3(),
            _ => random.cells(),
        };
        packed(lines, random, &cells);
        verdicts(lines, &cells);
    }
}

fn masks(lines: &mut String, random: &mut Random, cells: &[u8; 9], pattern: &[u8]) {
    let verdict = rule_verdict::pattern(cells, pattern);
    let word = if rule::refuses(verdict) {
        verdict
    } else {
        let call = Call::with_text(Op::Matches, *cells, pattern);
        let matched = rule::outcome(&call).word;
        let said = asked::said(&call).expect("a good pattern");
        assert!(said.answer.agrees_with(matched), "{call:?}");
        4 * verdict + matched
    };
    let case = Case {
        word,
        a: number_of_matrix(cells) as u32 | (random.next() as u32) << 18,
        b: HELD,
        given: pattern,
        ..Case::default()
    };
    case.write(lines, 'm');
}

fn packed(lines: &mut String, random: &mut Random, cells: &[u8; 9]) {
    let read = rule::read(cells);
    let case = Case {
        cells: *cells,
        word: number_of_matrix(&read) as u32,
        a: number_of_matrix(&read) as u32 | (random.next() as u32) << 18,
        due: &read,
        ..Case::default()
    };
    case.write(lines, 'p');
}

fn verdicts(lines: &mut String, cells: &[u8; 9]) {
    let due: [u8; 11] = std::array::from_fn(|row| rule_verdict::predicate(cells, row as u32) as u8);
    let case = Case {
        cells: *cells,
        due: &due,
        ..Case::default()
    };
    case.write(lines, 'v');
}
