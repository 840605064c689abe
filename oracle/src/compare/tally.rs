//! Holds one call's three answers together, counts them, and prints what differs.

use super::plan_tally::Numbers;
use crate::asked::{self, Answer, Said};
use crate::listed::{self, Listed};
use crate::ours::{Call, Op, Reply};
use crate::rule::{self, Outcome};
use std::collections::BTreeMap;

/// Small inputs come first by this, the numbers before the bytes: see `size`, here and in plan_tally.rs.
pub(super) type Size = ([usize; 4], Vec<u8>);

/// How often a listed difference was met, and its smallest input.
struct Met {
    count: u64,
    smallest: Size,
    example: String,
}

#[derive(Default)]
pub(super) struct Count {
    pub(super) calls: u64,
    yes: u64,
    pub(super) refused: u64,
    pub(super) not_asked: u64,
    pub(super) listed: u64,
    pub(super) unlisted: u64,
}

#[derive(Default)]
pub struct Tally {
    kinds: Vec<(&'static str, Count)>,
    listed: BTreeMap<Listed, Met>,
    above_3_left: u64,
    above_3_written_as_3: u64,
    /// Verdicts: no for good, yes for good, open.
    verdicts: [u64; 3],
    pub(super) numbers: Numbers,
}

impl Tally {
    pub fn begin(&mut self, kind: &'static str) {
        self.kinds.push((kind, Count::default()));
    }

    /// The counts of the kind begun last.
    pub(super) fn count(&mut self) -> &mut Count {
        &mut self.kinds.last_mut().expect("a kind was begun").1
    }

    /// Counts one call; prints it if the three sides differ in a way that isn't listed.
    pub fn take(&mut self, kind: &str, call: &Call, reply: &Reply) {
        let due = rule::outcome(call);
        let said = asked::said(call);
        let listed = said
            .as_ref()
            .and_then(|said| listed::difference(call, &due, said));
        if let (Some(listed), Some(said)) = (listed, &said) {
            self.note_listed(listed, size(call, &due), || {
                describe_listed(listed, call, &due, said)
            });
        }
        self.note_above_3(call, &due, reply);

        let faults = faults(call, &due, said.as_ref(), reply, listed);
        if !faults.is_empty() {
            println!(
                "DIFFERENCE ({kind}) {}: {}; {}",
                faults.join(", "),
                describe(call),
                describe_answers(&due, said.as_ref(), reply)
            );
        }
        let is_verdict = matches!(call.op, Op::Verdict | Op::VerdictPattern);
        if is_verdict && due.word < 3 {
            self.verdicts[due.word as usize] += 1;
        }
        let count = self.count();
        count.calls += 1;
        let yes_or_no = matches!(call.op, Op::Matches | Op::Predicate) || is_verdict;
        count.yes += u64::from(yes_or_no && due.word == 1);
        count.refused += u64::from(rule::refuses(due.word));
        count.not_asked += u64::from(said.is_none());
        count.listed += u64::from(listed.is_some());
        count.unlisted += u64::from(!faults.is_empty());
    }

    pub(super) fn note_listed(
        &mut self,
        listed: Listed,
        size: Size,
        describe: impl Fn() -> String,
    ) {
        let met = self.listed.entry(listed).or_insert_with(|| Met {
            count: 0,
            smallest: size.clone(),
            example: describe(),
        });
        met.count += 1;
        if size < met.smallest {
            met.example = describe();
            met.smallest = size;
        }
    }

    /// Document 01 says how a number above 3 is read. Whether an accepted change leaves it where it wasn't asked to
    /// change is told, not judged.
    fn note_above_3(&mut self, call: &Call, due: &Outcome, reply: &Reply) {
        if reads_only(call, due) && above_3(&call.cells) {
            if above_3(&reply.nine) {
                self.above_3_left += 1;
            } else {
                self.above_3_written_as_3 += 1;
            }
        }
    }

    /// Prints the counts and the listed differences, and answers the exit status.
    pub fn report(&self) -> i32 {
        println!();
        println!("| kind | calls | yes | refused | crate can't be asked | listed | unlisted |");
        println!("|---|---:|---:|---:|---:|---:|---:|");
        for (kind, count) in &self.kinds {
            println!(
                "| {kind} | {} | {} | {} | {} | {} | {} |",
                count.calls,
                count.yes,
                count.refused,
                count.not_asked,
                count.listed,
                count.unlisted
            );
        }
        println!();
        for (listed, met) in &self.listed {
            println!("listed difference: {}", listed.words());
            println!("    {} times; smallest input: {}", met.count, met.example);
        }
        println!(
            "accepted changes of a matrix with numbers above 3: {} times such a number still stood in some cell, {} times all nine were 0 to 3",
            self.above_3_left, self.above_3_written_as_3
        );
        let [no, yes, open] = self.verdicts;
        println!("verdicts: {yes} yes for good, {no} no for good, {open} open");
        let unmet = self.numbers.report();
        let total: u64 = self.kinds.iter().map(|(_, count)| count.calls).sum();
        let unlisted: u64 = self.kinds.iter().map(|(_, count)| count.unlisted).sum();
        println!("{total} calls, {unlisted} unlisted differences");
        i32::from(unlisted + unmet != 0)
    }
}

/// How the answers to one call differ, if they do.
fn faults(
    call: &Call,
    due: &Outcome,
    said: Option<&Said>,
    reply: &Reply,
    listed: Option<Listed>,
) -> Vec<&'static str> {
    let mut faults = Vec::new();
    let mut fault = |holds: bool, name| {
        if holds {
            faults.push(name);
        }
    };
    if let Some(said) = said {
        fault(said.answer == Answer::Panicked, "the crate panics");
        let answers = listed != Some(Listed::WalksPast);
        fault(
            answers && !said.answer.agrees_with(due.word),
            "the crate's answer isn't document 01's",
        );
        fault(
            answers && !said.answer.agrees_with(reply.word),
            "our answer isn't the crate's",
        );
        fault(
            tells_another_letter(call, due),
            "the crate's letters tell another first bad one",
        );
        let read_due = if call.op == Op::ToText {
            due.nine
        } else {
            rule::read(&due.nine)
        };
        fault(
            listed != Some(Listed::KeepsRaised) && said.nine.is_some_and(|nine| nine != read_due),
            "the crate's nine bytes aren't document 01's",
        );
    }
    fault(reply.word != due.word, "our answer isn't document 01's");
    let ours = if reads_only(call, due) && above_3(&call.cells) {
        rule::read(&reply.nine)
    } else {
        reply.nine
    };
    fault(ours != due.nine, "our nine bytes aren't document 01's");
    fault(reply.stray, "a byte changed that the call may not write");
    faults
}

/// Whether the crate's own letters tell another first bad one of nine bytes than the rule refuses, or one where it doesn't.
fn tells_another_letter(call: &Call, due: &Outcome) -> bool {
    let pattern = std::str::from_utf8(call.text());
    let (Op::Matches, 9, Ok(pattern)) = (call.op, call.count, pattern) else {
        return false;
    };
    let told = asked::first_bad_letter(pattern).map(|place| rule::BAD_BYTE + place as u32);
    told != Some(due.word).filter(|word| rule::refuses(*word))
}

/// Whether the rule for numbers above 3 settles the nine bytes only as they are read: accepted changes of a given
/// matrix.
fn reads_only(call: &Call, due: &Outcome) -> bool {
    let changes = matches!(
        call.op,
        Op::Raise | Op::Set | Op::SetAtLeast | Op::Transpose
    );
    changes && !rule::refuses(due.word)
}

fn above_3(cells: &[u8; 9]) -> bool {
    cells.iter().any(|cell| *cell > 3)
}

/// Few and low cells first, then texts with few letters other than F (patterns: other than `*`), then early places.
fn size(call: &Call, due: &Outcome) -> Size {
    let sum = call.cells.iter().map(|cell| usize::from(*cell)).sum();
    let plain = if call.op == Op::Matches { b'*' } else { b'F' };
    let others = call.text().iter().filter(|byte| **byte != plain).count();
    let bytes = [&call.cells[..], call.text()].concat();
    ([sum, others, due.word as usize, 0], bytes)
}

/// A matrix as text, if all its numbers have a letter.
fn letters(cells: Option<[u8; 9]>) -> String {
    match cells {
        Some(cells) if !above_3(&cells) => cells
            .map(|cell| b"F012"[cell as usize] as char)
            .iter()
            .collect(),
        other => format!("{other:?}"),
    }
}

fn describe(call: &Call) -> String {
    let cells = letters(Some(call.cells));
    let text = || format!("\"{}\"", call.text().escape_ascii());
    match call.op {
        Op::Predicates | Op::ToText | Op::Transpose | Op::Region => {
            format!("{:?} of {cells}", call.op)
        }
        Op::Predicate | Op::Verdict => format!("{:?} {} of {cells}", call.op, call.a),
        Op::Matches | Op::FromText | Op::Raise | Op::VerdictPattern => {
            format!("{:?} {} on {cells}", call.op, text())
        }
        Op::PredicateNamed | Op::RegionNamed => format!("{:?} {}", call.op, text()),
        Op::Set | Op::SetAtLeast => format!(
            "{:?} ({}, {}) to {} on {cells}",
            call.op, call.a, call.b, call.dimension
        ),
    }
}

fn describe_listed(listed: Listed, call: &Call, due: &Outcome, said: &Said) -> String {
    let call = describe(call);
    match listed {
        Listed::KeepsRaised => format!("{call}; the crate's cells after: {}", letters(said.nine)),
        Listed::WalksPast => {
            let place = due.word - rule::BAD_BYTE;
            format!("{call}; the crate: no; by the rule: refusal 11 at {place}")
        }
        Listed::LastDecidesLabels | Listed::LastDecidesMatrix => {
            unreachable!("calls on a matrix meet none of these")
        }
    }
}

fn describe_answers(due: &Outcome, said: Option<&Said>, reply: &Reply) -> String {
    let said = match said {
        Some(said) => format!("{:?} {:?}", said.answer, said.nine),
        None => "can't be asked".into(),
    };
    format!(
        "document 01: {:#x} {:?}; the crate: {said}; ours: {:#x} {:?}",
        due.word, due.nine, reply.word, reply.nine
    )
}
