//! `matches`: every byte at every place, on cells that agree and cells that disagree before and after it, and many random
//! pairs.

use super::Run;
use crate::ours::{Call, Op};
use crate::pieces::{
    PATTERN_LETTERS, SEVERAL_BYTES, agreeing, agreeing_pattern, bad_byte, disagreeing,
    good_pattern, of_wrong_count, with_character,
};
use crate::rule;

pub fn compare(run: &mut Run) {
    every_byte_on_every_cell(run);
    every_byte_after_agreeing_cells(run);
    every_byte_after_a_disagreeing_cell(run);
    characters_of_several_bytes(run);
    random_pairs(run);
    wrong_counts(run);
    numbers_above_3(run);
}

/// Request R-5: a bad letter is refused with its place, whatever the matrix.
pub fn compare_bad_letters(run: &mut Run) {
    p5_and_p6(run);
    every_byte_among_agreeing_cells(run);
    every_byte_before_a_disagreeing_cell(run);
    every_byte_after_each_letter_on_empty(run);
}

fn ask(run: &mut Run, cells: [u8; 9], pattern: &[u8]) {
    run.ask(Call::with_text(Op::Matches, cells, pattern));
}

fn every_byte_on_every_cell(run: &mut Run) {
    run.begin("matches, every byte on every cell, the rest `*`");
    for place in 0..9 {
        for byte in 0..=255 {
            for cell in 0..4 {
                let mut cells = run.random.cells();
                cells[place] = cell;
                let mut pattern = *b"*********";
                pattern[place] = byte;
                ask(run, cells, &pattern);
            }
        }
    }
}

/// Letters that agree up to `place`, and any good ones after it.
fn agreeing_up_to(run: &mut Run, cells: &[u8; 9], place: usize) -> [u8; 9] {
    let mut pattern = good_pattern(&mut run.random);
    for before in 0..place {
        pattern[before] = agreeing(&mut run.random, cells[before]);
    }
    pattern
}

fn every_byte_after_agreeing_cells(run: &mut Run) {
    run.begin("matches, every byte at every place, the cells before it agree");
    for place in 0..9 {
        for byte in 0..=255 {
            for _ in 0..run.times(8) {
                let cells = run.random.cells();
                let mut pattern = agreeing_up_to(run, &cells, place);
                pattern[place] = byte;
                ask(run, cells, &pattern);
            }
        }
    }
}

fn every_byte_after_a_disagreeing_cell(run: &mut Run) {
    run.begin("matches, every byte at every place, an earlier cell disagrees");
    for place in 1..9 {
        for byte in 0..=255 {
            for earlier in 0..place {
                for _ in 0..run.times(4) {
                    let cells = run.random.cells();
                    let mut pattern = agreeing_up_to(run, &cells, place);
                    pattern[earlier] = disagreeing(&mut run.random, cells[earlier]);
                    pattern[place] = byte;
                    ask(run, cells, &pattern);
                }
            }
        }
    }
}

/// Nine bytes, but fewer than nine characters: the crate counts bytes and walks characters.
fn characters_of_several_bytes(run: &mut Run) {
    run.begin("matches, a character of several bytes");
    for character in SEVERAL_BYTES {
        for place in 0..9 {
            // earlier == place: no earlier cell disagrees
            for earlier in 0..=place {
                for _ in 0..run.times(20) {
                    let cells = run.random.cells();
                    let mut pattern = agreeing_up_to(run, &cells, place);
                    if earlier < place {
                        pattern[earlier] = disagreeing(&mut run.random, cells[earlier]);
                    }
                    let Some(mut pattern) = with_character(&pattern, place, character) else {
                        continue;
                    };
                    let after = place + character.len_utf8() + run.random.below(4);
                    let second = run.random.pick(&SEVERAL_BYTES);
                    pattern = with_character(&pattern, after, second).unwrap_or(pattern);
                    ask(run, cells, &pattern);
                }
            }
        }
    }
}

fn random_pairs(run: &mut Run) {
    run.begin("matches, random: good patterns that mostly agree");
    for _ in 0..run.times(500_000) {
        let cells = run.random.cells();
        let mut pattern = agreeing_pattern(&mut run.random, &cells);
        if run.random.below(2) == 0 {
            let place = run.random.below(9);
            pattern[place] = run.random.pick(&PATTERN_LETTERS);
        }
        ask(run, cells, &pattern);
    }
    run.begin("matches, random: any good patterns");
    for _ in 0..run.times(200_000) {
        let cells = run.random.cells();
        let pattern = good_pattern(&mut run.random);
        ask(run, cells, &pattern);
    }
    run.begin("matches, random: one bad byte");
    for _ in 0..run.times(300_000) {
        let cells = run.random.cells();
        let mut pattern = agreeing_pattern(&mut run.random, &cells);
        let other = run.random.below(9);
        pattern[other] = run.random.pick(&PATTERN_LETTERS);
        let place = run.random.below(9);
        pattern[place] = bad_byte(&mut run.random);
        ask(run, cells, &pattern);
    }
    run.begin("matches, random: bytes below 128");
    for _ in 0..run.times(100_000) {
        let cells = run.random.cells();
        let pattern = run.random.nine_bytes().map(|byte| byte & 127);
        ask(run, cells, &pattern);
    }
    run.begin("matches, random: any bytes");
    for _ in 0..run.times(100_000) {
        let cells = run.random.cells();
        let pattern = run.random.nine_bytes();
        ask(run, cells, &pattern);
    }
}

fn wrong_counts(run: &mut Run) {
    run.begin("matches, 0 to 20 bytes but not nine");
    for count in (0..=20).filter(|count| *count != 9) {
        for _ in 0..run.times(500) {
            let cells = run.random.cells();
            let pattern = of_wrong_count(&mut run.random, &PATTERN_LETTERS, count);
            ask(run, cells, &pattern);
        }
    }
}

fn numbers_above_3(run: &mut Run) {
    run.begin("matches, numbers above 3");
    for _ in 0..run.times(20_000) {
        let cells = run.random.cells_above_3();
        let read = cells.map(|cell| cell.min(3));
        let mut pattern = agreeing_pattern(&mut run.random, &read);
        if run.random.below(2) == 0 {
            let place = run.random.below(9);
            pattern[place] = run.random.pick(b"*TtFf012X");
        }
        ask(run, cells, &pattern);
    }
}

/// Document 01's own examples, P5 as the request has it.
fn p5_and_p6(run: &mut Run) {
    run.begin("matches, P5 and P6");
    for letters in [b"FFFFFFFF2", b"212101212"] {
        let cells = rule::letters(letters).expect("a matrix");
        let call = Call::with_text(Op::Matches, cells, b"T*X******");
        assert_eq!(rule::outcome(&call).word, rule::BAD_BYTE + 2, "{call:?}");
        run.ask(call);
    }
}

fn every_byte_among_agreeing_cells(run: &mut Run) {
    run.begin("matches, every byte at every place, every other cell agrees");
    for place in 0..9 {
        for byte in 0..=255 {
            for _ in 0..run.times(4) {
                let cells = run.random.cells();
                let mut pattern = agreeing_pattern(&mut run.random, &cells);
                pattern[place] = byte;
                ask(run, cells, &pattern);
            }
        }
    }
}

fn every_byte_before_a_disagreeing_cell(run: &mut Run) {
    run.begin("matches, every byte at every place, only a later cell disagrees");
    for place in 0..8 {
        for byte in 0..=255 {
            for later in place + 1..9 {
                for _ in 0..run.times(4) {
                    let cells = run.random.cells();
                    let mut pattern = agreeing_pattern(&mut run.random, &cells);
                    pattern[later] = disagreeing(&mut run.random, cells[later]);
                    pattern[place] = byte;
                    ask(run, cells, &pattern);
                }
            }
        }
    }
}

/// Nothing random, so that the listed difference's smallest input is among them.
fn every_byte_after_each_letter_on_empty(run: &mut Run) {
    run.begin("matches on FFFFFFFFF, every byte behind each letter that disagrees, the rest `*`");
    for place in 1..9 {
        for earlier in 0..place {
            for letter in *b"Tt012" {
                for byte in 0..=255 {
                    let mut pattern = *b"*********";
                    pattern[earlier] = letter;
                    pattern[place] = byte;
                    ask(run, [0; 9], &pattern);
                }
            }
        }
    }
}
