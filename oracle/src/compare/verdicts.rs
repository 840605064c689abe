//! Verdicts: of every predicate on every matrix, and of patterns of all letters, good ones and bad ones.

use super::Run;
use crate::ours::plans::{PlanCall, PlanOp};
use crate::ours::{Call, Op};
use crate::pieces::{
    MATRICES, PATTERN_LETTERS, SEVERAL_BYTES, bad_byte, good_pattern, in_reach, matrix_by_number,
    of_wrong_count, out_of_reach, settled, with_character,
};
use crate::rule;
use crate::rule_plan;
use crate::rule_verdict::{NO_FOR_GOOD, OPEN};

pub fn compare(run: &mut Run) {
    each_cell_rises_alone(run);
    p7_and_p8(run);
    every_matrix(run);
    numbers_without_a_predicate(run);
    numbers_above_3(run);
    every_byte_on_every_cell(run);
    every_byte_at_every_place(run);
    random_patterns(run);
    bad_patterns(run);
    wrong_counts(run);
    patterns_on_numbers_above_3(run);
}

fn ask(run: &mut Run, cells: [u8; 9], pattern: &[u8]) {
    run.ask(Call::with_text(Op::VerdictPattern, cells, pattern));
}

/// A record that raises one cell and no other: a node without ends, a line's label, or an area's with its lefts alone.
fn raising_record(a: u8, b: u8, cell: u8) -> Vec<u8> {
    match cell {
        1 => vec![0, 7, 1, 1, a, b, 0, 0, 0],
        2 => vec![0, 9, 1, 2, 0, a, 0, 0, b, 0, 0],
        _ => vec![0, 9, 1, 2, 1, 0, a, 0, 0, b, 0],
    }
}

/// What the verdict's rules lean on: by accepted records any one cell can come to any dimension.
fn each_cell_rises_alone(run: &mut Run) {
    run.begin("a record that raises one cell, for every cell and dimension");
    for place in 0..9 {
        let (a, b) = (1 + place as u8 / 3, 1 + place as u8 % 3);
        for cell in 1..4 {
            for number in 0..run.times(100) {
                let cells = if number == 0 {
                    [0; 9]
                } else {
                    run.random.cells()
                };
                let bytes = raising_record(a, b, cell);
                let call = PlanCall::on_cells(PlanOp::Record, cells, bytes);
                let mut raised = cells;
                raised[place] = raised[place].max(cell);
                assert_eq!(rule_plan::outcome(&call).out, raised, "{call:?}");
                run.ask_plan(call);
            }
        }
    }
}

/// Document 01's own examples.
fn p7_and_p8(run: &mut Run) {
    run.begin("verdict, P7 and P8");
    let examples = [
        (b"FFFFFFFF2", b"T*X******", rule::BAD_BYTE + 2),
        (b"FFFFFFFF2", b"FF*FF****", OPEN),
        (b"0FFFFFFF2", b"FF*FF****", NO_FOR_GOOD),
    ];
    for (letters, pattern, word) in examples {
        let cells = rule::letters(letters).expect("a matrix");
        let call = Call::with_text(Op::VerdictPattern, cells, pattern);
        assert_eq!(rule::outcome(&call).word, word, "{call:?}");
        run.ask(call);
    }
}

fn every_matrix(run: &mut Run) {
    run.begin("verdict of a predicate, every matrix");
    for number in 0..MATRICES {
        for which in 0..11 {
            run.ask(Call::verdict(matrix_by_number(number), which));
        }
    }
}

fn numbers_without_a_predicate(run: &mut Run) {
    run.begin("verdict, predicate number of 11 and up");
    for which in (11..=600).chain([0x7FFF_FFFF, 0x8000_0000, u32::MAX - 11, u32::MAX]) {
        let cells = run.random.cells();
        run.ask(Call::verdict(cells, which));
    }
    for _ in 0..run.times(20_000) {
        let cells = run.random.cells();
        let which = (run.random.next() as u32).max(11);
        run.ask(Call::verdict(cells, which));
    }
}

fn numbers_above_3(run: &mut Run) {
    run.begin("verdict of a predicate, every number above 3 in every cell");
    for place in 0..9 {
        for number in 4..=255 {
            let mut cells = run.random.cells();
            cells[place] = number;
            for which in 0..11 {
                run.ask(Call::verdict(cells, which));
            }
        }
    }
    run.begin("verdict of a predicate, numbers above 3 in some cells");
    for _ in 0..run.times(20_000) {
        let mut cells = run.random.cells_above_3();
        // half of them with many F, so that more verdicts are open
        if run.random.below(2) == 0 {
            let kept = run.random.next();
            for (place, cell) in cells.iter_mut().enumerate() {
                *cell *= (kept >> place & 1) as u8;
            }
        }
        for which in 0..11 {
            run.ask(Call::verdict(cells, which));
        }
    }
}

fn every_byte_on_every_cell(run: &mut Run) {
    run.begin("verdict of a pattern, every byte on every cell, the rest `*`");
    for place in 0..9 {
        for byte in 0..=255 {
            for cell in 0..4 {
                let mut cells = run.random.cells();
                cells[place] = cell;
                let mut pattern = *b"*********";
                pattern[place] = byte;
                ask(run, cells, &pattern);
            }
        }
    }
}

fn every_byte_at_every_place(run: &mut Run) {
    run.begin("verdict of a pattern, every byte at every place, the rest good");
    for place in 0..9 {
        for byte in 0..=255 {
            for _ in 0..run.times(4) {
                let cells = run.random.cells();
                let mut pattern = good_pattern(&mut run.random);
                pattern[place] = byte;
                ask(run, cells, &pattern);
                let mut pattern = cells.map(|cell| in_reach(&mut run.random, cell));
                pattern[place] = byte;
                ask(run, cells, &pattern);
            }
        }
    }
}

/// Nine letters that the cells can still come to agree with; open but for a few.
fn within_reach(run: &mut Run, cells: &[u8; 9]) -> [u8; 9] {
    cells.map(|cell| in_reach(&mut run.random, cell))
}

fn random_patterns(run: &mut Run) {
    run.begin("verdict of a pattern, random: all letters in reach");
    for _ in 0..run.times(100_000) {
        let cells = run.random.cells();
        let pattern = within_reach(run, &cells);
        ask(run, cells, &pattern);
    }
    run.begin("verdict of a pattern, random: all letters settled, or all but one");
    for _ in 0..run.times(60_000) {
        let cells = run.random.cells();
        let mut pattern = cells.map(|cell| settled(&mut run.random, cell));
        if run.random.below(3) == 0 {
            let place = run.random.below(9);
            pattern[place] = run.random.pick(&PATTERN_LETTERS);
        }
        ask(run, cells, &pattern);
    }
    run.begin("verdict of a pattern, random: one letter out of reach");
    for _ in 0..run.times(40_000) {
        let mut cells = run.random.cells();
        let place = run.random.below(9);
        cells[place] = cells[place].max(1);
        let mut pattern = within_reach(run, &cells);
        pattern[place] = out_of_reach(&mut run.random, cells[place]);
        ask(run, cells, &pattern);
    }
    run.begin("verdict of a pattern, random: any good patterns");
    for _ in 0..run.times(100_000) {
        let cells = run.random.cells();
        let pattern = good_pattern(&mut run.random);
        ask(run, cells, &pattern);
    }
}

/// The first bad byte is told, also after a letter out of reach and before other bad bytes.
fn bad_patterns(run: &mut Run) {
    run.begin("verdict of a pattern, random: one to nine bad bytes");
    for _ in 0..run.times(100_000) {
        let cells = run.random.cells();
        let mut pattern = good_pattern(&mut run.random);
        for _ in 0..=run.random.below(9) {
            let place = run.random.below(9);
            pattern[place] = bad_byte(&mut run.random);
        }
        ask(run, cells, &pattern);
    }
    run.begin("verdict of a pattern, random: any bytes");
    for _ in 0..run.times(50_000) {
        let cells = run.random.cells();
        let pattern = run.random.nine_bytes();
        ask(run, cells, &pattern);
    }
    run.begin("verdict of a pattern, a character of several bytes");
    for character in SEVERAL_BYTES {
        for place in 0..9 {
            for _ in 0..run.times(100) {
                let cells = run.random.cells();
                let pattern = good_pattern(&mut run.random);
                if let Some(pattern) = with_character(&pattern, place, character) {
                    ask(run, cells, &pattern);
                }
            }
        }
    }
}

fn wrong_counts(run: &mut Run) {
    run.begin("verdict of a pattern, 0 to 20 bytes but not nine");
    for count in (0..=20).filter(|count| *count != 9) {
        for _ in 0..run.times(500) {
            let cells = run.random.cells();
            let pattern = of_wrong_count(&mut run.random, &PATTERN_LETTERS, count);
            ask(run, cells, &pattern);
        }
    }
}

fn patterns_on_numbers_above_3(run: &mut Run) {
    run.begin("verdict of a pattern, numbers above 3");
    for _ in 0..run.times(20_000) {
        let cells = run.random.cells_above_3();
        let mut pattern = within_reach(run, &rule::read(&cells));
        if run.random.below(2) == 0 {
            let place = run.random.below(9);
            pattern[place] = run.random.pick(b"*TtFf012X");
        }
        ask(run, cells, &pattern);
    }
}
