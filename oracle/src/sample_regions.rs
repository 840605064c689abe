//! The sample's lines of regions, by request R-13's patterns.

use crate::ours::plans::PlanCall;
use crate::ours::{Call, Op};
use crate::random::Random;
use crate::rule_region::{NAMES, PATTERNS};

/// Of its own, so that the lines above don't hang on these.
const SEED: u64 = 13;

pub const HEAD: &str = "\
# r misonkandi_region, the cells lent. h misonkandi_region_named, the name given. n misonkandi_region_name, the dimension
# the region, the offset a times 2^32 plus b; given is the buffer, and it is due.
# r: the crate's `matches` of each of request R-13's patterns. h, n: the request's names (oracle/src/rule_region.rs).
";

/// Cells that agree with a pattern of T and F.
fn agreeing(random: &mut Random, pattern: &str) -> [u8; 9] {
    let letters = pattern.as_bytes();
    std::array::from_fn(|place| match letters[place] {
        b'T' => 1 + random.below(3) as u8,
        _ => 0,
    })
}

pub fn calls() -> Vec<Call> {
    let random = &mut Random::new(SEED);
    let mut calls = Vec::new();
    for pattern in PATTERNS {
        for _ in 0..4 {
            calls.push(Call::plain(Op::Region, agreeing(random, pattern)));
        }
        for place in 0..9 {
            let mut cells = agreeing(random, pattern);
            cells[place] = if cells[place] == 0 { 2 } else { 0 };
            calls.push(Call::plain(Op::Region, cells));
        }
        let large = agreeing(random, pattern).map(|cell| if cell == 3 { 255 } else { cell });
        calls.push(Call::plain(Op::Region, large));
    }
    for _ in 0..40 {
        calls.push(Call::plain(Op::Region, random.cells()));
    }
    for name in NAMES.map(str::as_bytes) {
        for text in [name, &name[1..], &name[..name.len() - 1]] {
            calls.push(Call::with_text(Op::RegionNamed, [0; 9], text));
        }
        let upper = name.to_ascii_uppercase();
        calls.push(Call::with_text(Op::RegionNamed, [0; 9], &upper));
    }
    calls
}

/// Each name in the room that it needs, in one byte less, at an offset, and regions that there aren't.
pub fn written() -> Vec<PlanCall> {
    let random = &mut Random::new(SEED + 1);
    let mut calls = Vec::new();
    for region in 0..11 {
        let count = NAMES.get(region).map_or(5, |name| name.len());
        for (room, offset) in [
            (count, 0),
            (count - 1, 0),
            (count + 6, 3),
            (count, 1),
            (4, 5),
        ] {
            let buffer = (0..room).map(|_| random.byte()).collect();
            calls.push(PlanCall::region_name(region as u32, buffer, offset));
        }
    }
    calls.push(PlanCall::region_name(8, vec![7; 13], u64::MAX));
    calls.push(PlanCall::region_name(255, vec![7; 13], 0));
    calls
}
