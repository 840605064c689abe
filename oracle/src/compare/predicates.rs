//! The eleven predicates, over every matrix there is, and their names.

use super::Run;
use crate::ours::{Call, LONGEST, Op};
use crate::pieces::{MATRICES, matrix_by_number};
use crate::rule::NAMES;

pub fn compare(run: &mut Run) {
    run.begin("predicates, every matrix");
    for number in 0..MATRICES {
        run.ask(Call::plain(Op::Predicates, matrix_by_number(number)));
    }
    run.begin("predicate by number, every matrix");
    for number in 0..MATRICES {
        for which in 0..11 {
            run.ask(Call::predicate(matrix_by_number(number), which));
        }
    }
    numbers_without_a_predicate(run);
    numbers_above_3(run);
    names(run);
}

fn numbers_without_a_predicate(run: &mut Run) {
    run.begin("predicate number of 11 and up");
    for which in (11..=600).chain([0x7FFF_FFFF, 0x8000_0000, u32::MAX - 11, u32::MAX]) {
        let cells = run.random.cells();
        run.ask(Call::predicate(cells, which));
    }
    for _ in 0..run.times(20_000) {
        let cells = run.random.cells();
        let which = (run.random.next() as u32).max(11);
        run.ask(Call::predicate(cells, which));
    }
}

fn numbers_above_3(run: &mut Run) {
    run.begin("predicates, numbers above 3");
    for _ in 0..run.times(20_000) {
        let cells = run.random.cells_above_3();
        run.ask(Call::plain(Op::Predicates, cells));
    }
    run.begin("predicate by number, numbers above 3");
    for _ in 0..run.times(20_000) {
        let cells = run.random.cells_above_3();
        let which = run.random.below(12) as u32;
        run.ask(Call::predicate(cells, which));
    }
}

/// Each name, and texts near it.
fn names(run: &mut Run) {
    run.begin(
        "predicate by name, every name, cut, with a byte more, with every byte at every place",
    );
    for name in NAMES {
        let name = name.as_bytes();
        for count in 0..=name.len() {
            run.ask(Call::named(&name[..count]));
            run.ask(Call::named(&name[count..]));
        }
        for byte in 0..=255 {
            run.ask(Call::named(&[name, &[byte]].concat()));
            run.ask(Call::named(&[&[byte], name].concat()));
            for place in 0..name.len() {
                let mut text = name.to_vec();
                text[place] = byte;
                run.ask(Call::named(&text));
            }
        }
    }
    run.begin("predicate by name, random pieces of names and random bytes");
    for _ in 0..run.times(20_000) {
        let mut text = Vec::new();
        for _ in 0..1 + run.random.below(3) {
            let name = run.random.pick(&NAMES).as_bytes();
            let from = run.random.below(name.len());
            let to = from + run.random.below(name.len() - from + 1);
            text.extend(&name[from..to]);
        }
        if run.random.below(4) == 0 {
            text = (0..run.random.below(20))
                .map(|_| run.random.byte())
                .collect();
        }
        text.truncate(LONGEST);
        run.ask(Call::named(&text));
    }
}
