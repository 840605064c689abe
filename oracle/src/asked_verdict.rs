//! Verdicts by the crate's own answers. It has no verdict, so it is asked about every matrix that can still come.

use crate::asked::{self, Answer, Said};
use crate::ours::Call;
use crate::pieces::{MATRICES, matrix_by_number, number_of_matrix};
use crate::rule;
use crate::rule_verdict::{Ahead, Bits};
use std::sync::OnceLock;

/// The crate has no predicate with a number of 11 and up.
pub fn predicate(call: &Call) -> Option<Said> {
    let cells = rule::read(&call.cells);
    (call.a < 11).then(|| Said {
        answer: Answer::Word(all_bits()[number_of_matrix(&cells)].verdict(call.a)),
        nine: Some(cells),
    })
}

/// The crate's eleven answers for each matrix, gathered cell by cell from the largest dimension down: after the sweep
/// of a cell, each matrix has those of all matrices that are larger in the cells swept so far.
fn all_bits() -> &'static [Bits] {
    static TABLE: OnceLock<Vec<Bits>> = OnceLock::new();
    TABLE.get_or_init(|| {
        let bits = |number| {
            let answers = asked::predicates(&asked::matrix(&matrix_by_number(number)));
            Bits {
                any: answers,
                all: answers,
            }
        };
        let mut table: Vec<Bits> = (0..MATRICES).map(bits).collect();
        for place in 0..9 {
            let step = 1 << (2 * place);
            for number in (0..MATRICES).rev().filter(|n| n / step % 4 < 3) {
                let above = table[number + step];
                table[number].any |= above.any;
                table[number].all &= above.all;
            }
        }
        table
    })
}

/// A text is a `&str` there: bytes that aren't UTF-8 can't be asked.
pub fn pattern(call: &Call) -> Option<Said> {
    let pattern = std::str::from_utf8(call.text()).ok()?;
    let cells = rule::read(&call.cells);
    let answer = match asked::quietly(|| verdict_of(pattern, cells)) {
        Some(Some(word)) => Answer::Word(word),
        Some(None) => Answer::Refused,
        None => Answer::Panicked,
    };
    let nine = Some(cells);
    Some(Said { answer, nine })
}

/// The crate's `matches` on every matrix that is at least as large in all cells, or None for a pattern that isn't nine
/// letters of the crate's.
fn verdict_of(pattern: &str, cells: [u8; 9]) -> Option<u32> {
    if pattern.len() != 9 || asked::first_bad_letter(pattern).is_some() {
        return None;
    }
    let mut matrix = asked::matrix(&cells);
    let mut now = cells;
    let mut ahead = Ahead::NOTHING;
    loop {
        ahead.see(matrix.matches(pattern).expect("all its letters are good"));
        let both = ahead.yes && ahead.no;
        let rising = now.iter().position(|cell| *cell < 3);
        let (false, Some(place)) = (both, rising) else {
            return Some(ahead.verdict());
        };
        // The next matrix, as one counts: the first cell that can rises by one, those before it start again.
        now[..place].copy_from_slice(&cells[..place]);
        now[place] += 1;
        for (changed, cell) in now[..=place].iter().enumerate() {
            asked::put(&mut matrix, changed, *cell);
        }
    }
}
