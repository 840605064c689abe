//! The lines of masks: one pattern over many rooms, in one call and a call a room, beside the crate's `matches` of each.

use crate::asked;
use crate::bench::Best;
use crate::random::Random;
use crate::relate::geomgraph::intersection_matrix::IntersectionMatrix;
use crate::rule;
use crate::rule_verdict;
use std::hint::black_box;
use std::time::Instant;

#[cfg(linked)]
use crate::ours::linked;

/// Nothing of the library can be called on this processor, and nothing of this is.
#[cfg(not(linked))]
mod linked {
    pub fn masks(_: &[u8], _: &mut [u32; 4]) -> u32 {
        unreachable!()
    }

    pub fn pack(_: &[u8; 9]) -> u32 {
        unreachable!()
    }

    pub fn masks_match(_: &[u32; 4], _: u32) -> u32 {
        unreachable!()
    }

    pub fn masks_verdict(_: &[u32; 4], _: u32) -> u32 {
        unreachable!()
    }

    pub fn masks_match_all(_: &[u32; 4], _: &[u32], _: &mut [u8]) -> u32 {
        unreachable!()
    }

    pub fn masks_verdict_all(_: &[u32; 4], _: &[u32], _: &mut [u8]) -> u32 {
        unreachable!()
    }

    pub fn masks_count(_: &[u32; 4], _: &[u32]) -> u64 {
        unreachable!()
    }
}

const SEED: u64 = 11;
const ROOMS: usize = 32768;
const ROUNDS: usize = 200;
const PATTERNS: [&str; 5] = [
    "T*F**FFF*",
    "FFFFFFFFF",
    "TTTTTTTTT",
    "*********",
    "T*F0*1t*2",
];

/// The best time of one turn, in nanoseconds a room.
fn turn(best: &mut Best, call: impl Fn()) {
    let start = Instant::now();
    call();
    let nanoseconds = start.elapsed().as_nanos() as f64;
    best.took(nanoseconds / ROOMS as f64);
}

fn line(name: &str, crates: &Best, ours: &Best) {
    let (crates, ours) = (crates.each(1), ours.each(1));
    println!(
        "| {name} | {crates:.2} | {ours:.3} | {:.1} |",
        crates / ours
    );
}

fn measure(pattern: &str, cells: &[[u8; 9]]) {
    let matrices: Vec<IntersectionMatrix> = cells.iter().map(asked::matrix).collect();
    let rooms: Vec<u32> = cells.iter().map(|cells| linked::pack(cells)).collect();
    let mut masks = [0; 4];
    assert_eq!(linked::masks(pattern.as_bytes(), &mut masks), 0);
    let (mut answers, mut verdicts) = (vec![0u8; ROOMS], vec![0u8; ROOMS]);
    linked::masks_match_all(&masks, &rooms, &mut answers);
    linked::masks_verdict_all(&masks, &rooms, &mut verdicts);
    for (k, cells) in cells.iter().enumerate() {
        let matches = rule::matches(cells, pattern.as_bytes());
        let verdict = rule_verdict::pattern(cells, pattern.as_bytes());
        assert_eq!(u32::from(answers[k]), matches);
        assert_eq!(u32::from(verdicts[k]), verdict);
        assert_eq!(linked::masks_match(&masks, rooms[k]), matches);
        assert_eq!(linked::masks_verdict(&masks, rooms[k]), verdict);
    }
    let mut crates = Best::none();
    let mut ours = [(); 5].map(|()| Best::none());
    let lent = std::cell::RefCell::new(answers);
    for _ in 0..ROUNDS {
        turn(&mut crates, || {
            for matrix in &matrices {
                let _ = black_box(black_box(matrix).matches(black_box(pattern)));
            }
        });
        turn(&mut ours[0], || {
            let mut answers = lent.borrow_mut();
            black_box(linked::masks_match_all(
                black_box(&masks),
                black_box(&rooms),
                &mut answers,
            ));
        });
        turn(&mut ours[1], || {
            let mut answers = lent.borrow_mut();
            black_box(linked::masks_verdict_all(
                black_box(&masks),
                black_box(&rooms),
                &mut answers,
            ));
        });
        turn(&mut ours[2], || {
            black_box(linked::masks_count(black_box(&masks), black_box(&rooms)));
        });
        turn(&mut ours[3], || {
            for room in &rooms {
                black_box(linked::masks_match(black_box(&masks), black_box(*room)));
            }
        });
        turn(&mut ours[4], || {
            for room in &rooms {
                black_box(linked::masks_verdict(black_box(&masks), black_box(*room)));
            }
        });
    }
    let names = [
        "matches of all rooms, one call",
        "verdicts of all rooms, one call, beside the crate's `matches`",
        "how many rooms match, one call, beside the crate's `matches`",
        "matches, a call a room",
        "verdicts, a call a room, beside the crate's `matches`",
    ];
    for (name, ours) in names.iter().zip(&ours) {
        line(&format!("masks of `{pattern}`: {name}"), &crates, ours);
    }
}

pub fn measure_all() {
    if !cfg!(linked) {
        return;
    }
    let random = &mut Random::new(SEED);
    let cells: Vec<[u8; 9]> = (0..ROOMS).map(|_| random.cells()).collect();
    for pattern in PATTERNS {
        measure(pattern, &cells);
    }
}
