//! Document 01's verdicts in demand 3's own words: by the answers of every matrix that can still come.
//!
//! Cells only rise, and a record can raise any one cell to any dimension (`compare` asks for each of them). So what can
//! still come is every matrix with all cells at least as large.

use crate::pieces::{MATRICES, matrix_by_number, number_of_matrix};
use crate::rule::{self, NO_SUCH_ROW};
use std::sync::OnceLock;

pub const NO_FOR_GOOD: u32 = 0;
pub const YES_FOR_GOOD: u32 = 1;
pub const OPEN: u32 = 2;

/// The answers of all matrices that can still come.
#[derive(Clone, Copy)]
pub struct Ahead {
    pub yes: bool,
    pub no: bool,
}

impl Ahead {
    pub const NOTHING: Ahead = Ahead {
        yes: false,
        no: false,
    };

    pub fn see(&mut self, yes: bool) {
        self.yes |= yes;
        self.no |= !yes;
    }

    pub fn verdict(self) -> u32 {
        match (self.yes, self.no) {
            (true, true) => OPEN,
            (true, false) => YES_FOR_GOOD,
            (false, true) => NO_FOR_GOOD,
            (false, false) => unreachable!("the matrix given answers too"),
        }
    }
}

/// The same for the eleven predicates: bit k is set if any matrix says yes, or if all do.
#[derive(Clone, Copy)]
pub struct Bits {
    pub any: u32,
    pub all: u32,
}

impl Bits {
    pub fn verdict(self, which: u32) -> u32 {
        let ahead = Ahead {
            yes: self.any >> which & 1 == 1,
            no: self.all >> which & 1 == 0,
        };
        ahead.verdict()
    }
}

pub fn predicate(cells: &[u8; 9], which: u32) -> u32 {
    if which >= 11 {
        return NO_SUCH_ROW;
    }
    static TABLE: OnceLock<Vec<Bits>> = OnceLock::new();
    let table = TABLE.get_or_init(every_matrix);
    table[number_of_matrix(&rule::read(cells))].verdict(which)
}

/// Each matrix with each one that can still come: a thousand million pairs, some seconds.
fn every_matrix() -> Vec<Bits> {
    let answer = |number| rule::predicates(&matrix_by_number(number));
    let answers: Vec<u32> = (0..MATRICES).map(answer).collect();
    let bits = |number| {
        let mut bits = Bits { any: 0, all: !0 };
        see_all_from(&answers, number, 0, &mut bits);
        bits
    };
    (0..MATRICES).map(bits).collect()
}

/// Takes in the answers of all matrices that can come if only the number's digits from `place` on may rise.
fn see_all_from(answers: &[u32], number: usize, place: usize, bits: &mut Bits) {
    if place == 9 {
        bits.any |= answers[number];
        bits.all &= answers[number];
        return;
    }
    let step = 1 << (2 * place);
    for higher in 0..4 - number / step % 4 {
        see_all_from(answers, number + higher * step, place + 1, bits);
    }
}

/// The pattern is checked whole. Each cell rises for itself, so all can come to agree if each can, and all will stay so
/// if each will.
pub fn pattern(cells: &[u8; 9], pattern: &[u8]) -> u32 {
    if let Some(refusal) = rule::pattern_refusal(pattern) {
        return refusal;
    }
    let mut ahead = Ahead {
        yes: true,
        no: false,
    };
    for (byte, dimension) in pattern.iter().zip(rule::read(cells)) {
        let agrees = |higher| rule::agrees(*byte, higher) == Some(true);
        ahead.yes &= (dimension..4).any(agrees);
        ahead.no |= !(dimension..4).all(agrees);
    }
    ahead.verdict()
}
