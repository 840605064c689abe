//! Matrix texts: read, written, and raised from; good ones, damaged ones, and ones of a wrong count.

use super::Run;
use crate::ours::{Call, Op};
use crate::pieces::{
    MATRICES, SEVERAL_BYTES, TEXT_LETTERS, good_text, matrix_by_number, of_wrong_count,
    with_character,
};

pub fn compare(run: &mut Run) {
    every_good_text(run);
    good_raising(run);
    for (op, kinds) in [(Op::FromText, IN_KINDS), (Op::Raise, RAISE_KINDS)] {
        damaged(run, op, kinds[0]);
        lower_case(run, op, kinds[1]);
        characters_of_several_bytes(run, op, kinds[2]);
        random_bytes(run, op, kinds[3]);
        wrong_counts(run, op, kinds[4]);
    }
    numbers_above_3(run);
}

const IN_KINDS: [&str; 5] = [
    "text in, every byte at every place",
    "text in, lower case",
    "text in, a character of several bytes",
    "text in, random bytes",
    "text in, 0 to 20 bytes but not nine",
];
const RAISE_KINDS: [&str; 5] = [
    "raising, every byte at every place",
    "raising, lower case",
    "raising, a character of several bytes",
    "raising, random bytes",
    "raising, 0 to 20 bytes but not nine",
];

/// Four letters in nine places: as many texts as matrices. What the nine bytes held before reading is of no account.
fn every_good_text(run: &mut Run) {
    run.begin("text in, every good text");
    for number in 0..MATRICES {
        let text = matrix_by_number(number).map(|cell| TEXT_LETTERS[cell as usize]);
        let before = run.random.nine_bytes();
        run.ask(Call::with_text(Op::FromText, before, &text));
    }
    run.begin("text out, every matrix");
    for number in 0..MATRICES {
        run.ask(Call::plain(Op::ToText, matrix_by_number(number)));
    }
}

fn good_raising(run: &mut Run) {
    run.begin("raising, random matrix and good text");
    for _ in 0..run.times(1_000_000) {
        let cells = run.random.cells();
        let text = good_text(&mut run.random);
        run.ask(Call::with_text(Op::Raise, cells, &text));
    }
}

/// The nine bytes that a call finds. A refusal must leave numbers above 3 too, so some have them.
fn found(run: &mut Run) -> [u8; 9] {
    if run.random.below(4) == 0 {
        run.random.cells_above_3()
    } else {
        run.random.cells()
    }
}

fn damaged(run: &mut Run, op: Op, kind: &'static str) {
    run.begin(kind);
    for place in 0..9 {
        for byte in 0..=255 {
            // the smallest inputs first, so that the smallest difference is among them
            for mut text in [*b"FFFFFFFFF", *b"0FFFFFFFF", *b"000000000"] {
                text[place] = byte;
                run.ask(Call::with_text(op, [0; 9], &text));
            }
            for _ in 0..run.times(12) {
                let cells = found(run);
                let mut text = good_text(&mut run.random);
                text[place] = byte;
                run.ask(Call::with_text(op, cells, &text));
            }
        }
    }
}

fn lower_case(run: &mut Run, op: Op, kind: &'static str) {
    run.begin(kind);
    for _ in 0..run.times(10_000) {
        let cells = found(run);
        let mut text = good_text(&mut run.random);
        text[run.random.below(9)] = b'F';
        let chosen = run.random.next();
        for (place, byte) in text.iter_mut().enumerate() {
            if chosen >> place & 1 == 1 {
                *byte = byte.to_ascii_lowercase();
            }
        }
        run.ask(Call::with_text(op, cells, &text));
    }
}

fn characters_of_several_bytes(run: &mut Run, op: Op, kind: &'static str) {
    run.begin(kind);
    for character in SEVERAL_BYTES {
        for place in 0..9 {
            for _ in 0..run.times(40) {
                let cells = found(run);
                let good = good_text(&mut run.random);
                if let Some(text) = with_character(&good, place, character) {
                    run.ask(Call::with_text(op, cells, &text));
                }
            }
        }
    }
}

fn random_bytes(run: &mut Run, op: Op, kind: &'static str) {
    run.begin(kind);
    for _ in 0..run.times(100_000) {
        let cells = found(run);
        // mostly good letters, so that later places are reached
        let text = std::array::from_fn::<u8, 9, _>(|_| match run.random.below(8) {
            0 => run.random.byte() & 127,
            1 if run.random.below(8) == 0 => run.random.byte(),
            _ => run.random.pick(&TEXT_LETTERS),
        });
        run.ask(Call::with_text(op, cells, &text));
    }
}

fn wrong_counts(run: &mut Run, op: Op, kind: &'static str) {
    run.begin(kind);
    for count in (0..=20).filter(|count| *count != 9) {
        for _ in 0..run.times(500) {
            let cells = found(run);
            let text = of_wrong_count(&mut run.random, &TEXT_LETTERS, count);
            run.ask(Call::with_text(op, cells, &text));
        }
    }
}

fn numbers_above_3(run: &mut Run) {
    run.begin("text out, numbers above 3");
    for _ in 0..run.times(20_000) {
        let cells = run.random.cells_above_3();
        run.ask(Call::plain(Op::ToText, cells));
    }
    run.begin("raising, numbers above 3 and a good text");
    for _ in 0..run.times(20_000) {
        let cells = run.random.cells_above_3();
        let text = good_text(&mut run.random);
        run.ask(Call::with_text(Op::Raise, cells, &text));
    }
}
