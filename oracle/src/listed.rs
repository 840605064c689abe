//! The listed differences between the crate and the rules that calls can meet, and when exactly each is there.
//! docs/DIFFERENCES.md tells them; a difference that isn't exactly one of these is a fault.

use crate::asked::{self, Answer, Said};
use crate::asked_star::PlanSaid;
use crate::ours::plans::{PlanCall, PlanOp};
use crate::ours::{Call, Op};
use crate::rule::{self, Outcome};
use crate::rule_plan::{self, PlanOutcome};

#[derive(Clone, Copy, Debug, PartialEq, Eq, PartialOrd, Ord)]
pub enum Listed {
    /// Document 01: raising is all or nothing.
    KeepsRaised,
    /// Request R-5: a bad letter is always reported.
    WalksPast,
    /// Request R-6: any line bundle on the boundary collapses a geometry. In a star's labels, and in a record's matrix.
    LastDecidesLabels,
    LastDecidesMatrix,
}

impl Listed {
    pub fn words(self) -> &'static str {
        match self {
            Listed::KeepsRaised => {
                "raising refused: the crate's set_at_least_from_string keeps the cells already raised"
            }
            Listed::WalksPast => {
                "a bad letter behind a cell that disagrees: the crate's matches says no and never looks at it"
            }
            Listed::LastDecidesLabels => {
                "a star with an earlier line bundle on the boundary: the crate has only the last bundle collapse a geometry, and other labels"
            }
            Listed::LastDecidesMatrix => {
                "a record with an earlier line bundle on the boundary: the crate has only the last bundle collapse a geometry, and another matrix"
            }
        }
    }
}

/// Which listed difference a call meets, if it meets one.
pub fn difference(call: &Call, due: &Outcome, said: &Said) -> Option<Listed> {
    if keeps_raised(call, due, said) {
        Some(Listed::KeepsRaised)
    } else if walks_past(call, due, said) {
        Some(Listed::WalksPast)
    } else {
        None
    }
}

/// Both refuse a bad byte, and the crate has raised the cells before its place and no other.
fn keeps_raised(call: &Call, due: &Outcome, said: &Said) -> bool {
    let refused = call.op == Op::Raise && due.word >= rule::BAD_BYTE;
    let (true, Answer::Refused, Some(nine)) = (refused, &said.answer, said.nine) else {
        return false;
    };
    let given = rule::read(&call.cells);
    let place = (due.word - rule::BAD_BYTE) as usize;
    let mut good_part = *b"FFFFFFFFF";
    good_part[..place].copy_from_slice(&call.text()[..place]);
    let raised = rule::outcome(&Call::with_text(Op::Raise, given, &good_part)).nine;
    nine == raised && nine != given
}

/// By the crate's own letters the pattern has a bad one, and its place is the refusal's; a cell before it disagrees, and
/// the crate says no. So a wholly good pattern is never among these.
fn walks_past(call: &Call, due: &Outcome, said: &Said) -> bool {
    let pattern = std::str::from_utf8(call.text());
    let (Op::Matches, Answer::Word(0), Ok(pattern)) = (call.op, &said.answer, pattern) else {
        return false;
    };
    let Some(place) = asked::first_bad_letter(pattern) else {
        return false;
    };
    let before = pattern.as_bytes()[..place].iter();
    let mut pairs = before.zip(rule::read(&call.cells));
    due.word == rule::BAD_BYTE + place as u32
        && pairs.any(|(byte, cell)| rule::agrees(*byte, cell) == Some(false))
}

/// Which listed difference a call on a star or a record meets. The crate's answer is exactly what document 01 said
/// before request R-6, and that isn't what the request says. The two rules have all but the collapse in common, so that
/// an earlier line bundle on the boundary is the only reason there can be.
pub fn plan_difference(call: &PlanCall, due: &PlanOutcome, said: &PlanSaid) -> Option<Listed> {
    let listed = match call.op {
        PlanOp::Star => Listed::LastDecidesLabels,
        PlanOp::Record => Listed::LastDecidesMatrix,
        _ => return None,
    };
    let PlanSaid::Gave { word, out } = said else {
        return None;
    };
    let old = rule_plan::old_outcome(call);
    let exactly = (*word, out) == (old.word, &old.out) && old != *due;
    (exactly && !rule::refuses(due.word)).then_some(listed)
}
