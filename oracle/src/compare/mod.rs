//! The comparison: the same calls to the crate and to the library, and document 01's rules beside them.

mod changes;
mod conversions;
mod directions;
mod floors;
mod many_ends;
mod matches;
mod outlines;
mod plan_tally;
mod predicates;
mod records;
mod regions;
mod reports;
mod stars;
mod symmetry;
mod tally;
mod text;
mod traced;
mod verdicts;
mod wkt;
mod wkt_written;

use crate::asked;
use crate::ours::plans::{PlanCall, PlanReply};
use crate::ours::{Call, Library};
use crate::random::Random;
use tally::Tally;

const SEED: u64 = 20_250_101;
/// Calls that are answered in one go; it matters only where the library runs in a program of its own.
const BATCH: usize = 4096;

/// A run: where calls are gathered, answered and counted.
struct Run {
    random: Random,
    multiplier: usize,
    library: Library,
    waiting: Vec<Call>,
    waiting_plans: Vec<PlanCall>,
    kind: &'static str,
    tally: Tally,
}

impl Run {
    /// Calls that follow are counted under this name.
    fn begin(&mut self, kind: &'static str) {
        self.answer_waiting();
        self.kind = kind;
        self.tally.begin(kind);
    }

    fn ask(&mut self, call: Call) {
        self.waiting.push(call);
        if self.waiting.len() == BATCH {
            self.answer_waiting();
        }
    }

    fn ask_plan(&mut self, call: PlanCall) {
        self.waiting_plans.push(call);
        if self.waiting_plans.len() == BATCH {
            self.answer_waiting();
        }
    }

    fn answer_waiting(&mut self) {
        let replies = self.library.answer(&self.waiting);
        for (call, reply) in self.waiting.drain(..).zip(replies) {
            self.tally.take(self.kind, &call, &reply);
        }
        let calls = std::mem::take(&mut self.waiting_plans);
        self.answered(&calls);
    }

    /// Has these calls answered and counted at once, for calls that are made of the replies.
    fn answered(&mut self, calls: &[PlanCall]) -> Vec<PlanReply> {
        let replies = self.library.answer_plans(calls);
        for (call, reply) in calls.iter().zip(&replies) {
            self.tally.take_plan(self.kind, call, reply);
        }
        replies
    }

    /// A count of random inputs, with the multiplier of the command line.
    fn times(&self, count: usize) -> usize {
        count * self.multiplier
    }
}

/// A number from the command line, or its default.
fn argument(place: usize, default: u64) -> u64 {
    match std::env::args().nth(place) {
        Some(word) => word.parse().unwrap_or_else(|_| {
            eprintln!(
                "usage: compare [SEED [MULTIPLIER [ends | traced | symmetry]]]   (whole numbers)"
            );
            std::process::exit(2)
        }),
        None => default,
    }
}

/// Compares everything, reports, and answers the exit status.
pub fn main() -> i32 {
    let seed = argument(1, SEED);
    let multiplier = argument(2, 1) as usize;
    asked::hush_the_crate();
    let mut run = Run {
        random: Random::new(seed),
        multiplier,
        library: Library::open(),
        waiting: Vec::with_capacity(BATCH),
        waiting_plans: Vec::with_capacity(BATCH),
        kind: "",
        tally: Tally::default(),
    };
    println!("seed {seed}, random counts times {multiplier}");
    println!("the library is {}", run.library.way());
    // Request R-11's, R-7's or R-12's part alone: the report then has answers that were never met.
    if let Some(part) = std::env::args().nth(3) {
        match part.as_str() {
            "traced" => traced::compare(&mut run),
            "symmetry" => symmetry::compare(&mut run),
            _ => {
                many_ends::compare(&mut run);
                conversions::compare(&mut run);
            }
        }
        run.answer_waiting();
        return run.tally.report();
    }
    predicates::compare(&mut run);
    matches::compare(&mut run);
    text::compare(&mut run);
    changes::compare(&mut run);
    stars::compare(&mut run);
    records::compare(&mut run);
    reports::compare(&mut run);
    verdicts::compare(&mut run);
    // Last, so that every run above draws what it drew without it.
    matches::compare_bad_letters(&mut run);
    reports::compare_both_forms(&mut run);
    outlines::compare(&mut run);
    stars::compare_turned(&mut run);
    wkt::compare(&mut run);
    wkt_written::compare(&mut run);
    floors::compare(&mut run);
    directions::compare(&mut run);
    many_ends::compare(&mut run);
    conversions::compare(&mut run);
    regions::compare(&mut run);
    traced::compare(&mut run);
    symmetry::compare(&mut run);
    run.answer_waiting();
    run.tally.report()
}
