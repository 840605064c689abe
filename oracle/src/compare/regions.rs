//! Request R-13: the region of every matrix there is, and the regions' names. Boxes: geos/regions.sh.

use super::Run;
use crate::ours::plans::PlanCall;
use crate::ours::{Call, LONGEST, Op};
use crate::pieces::{MATRICES, matrix_by_number};
use crate::rule_region::NAMES;

pub fn compare(run: &mut Run) {
    run.begin("region, every matrix");
    for number in 0..MATRICES {
        run.ask(Call::plain(Op::Region, matrix_by_number(number)));
    }
    run.begin("region, numbers above 3");
    for _ in 0..run.times(20_000) {
        let cells = run.random.cells_above_3();
        run.ask(Call::plain(Op::Region, cells));
    }
    names(run);
    written(run);
}

fn named(name: &[u8]) -> Call {
    Call::with_text(Op::RegionNamed, [0; 9], &name[..name.len().min(LONGEST)])
}

/// Each name, and texts near it.
fn names(run: &mut Run) {
    run.begin("region by name, every name, cut, with a byte more, with every byte at every place");
    for name in NAMES.map(str::as_bytes) {
        for count in 0..=name.len() {
            run.ask(named(&name[..count]));
            run.ask(named(&name[count..]));
        }
        for byte in 0..=255 {
            run.ask(named(&[name, &[byte]].concat()));
            run.ask(named(&[&[byte], name].concat()));
            for place in 0..name.len() {
                let mut text = name.to_vec();
                text[place] = byte;
                run.ask(named(&text));
            }
        }
    }
}

/// Each name in every room up to twenty bytes at every offset up to one beyond it; then regions that there aren't.
fn written(run: &mut Run) {
    run.begin("region's name, every room and offset up to 20");
    for region in 0..12 {
        for room in 0..=20 {
            for offset in 0..=room as u64 + 1 {
                let buffer = (0..room).map(|_| run.random.byte()).collect();
                run.ask_plan(PlanCall::region_name(region, buffer, offset));
            }
        }
    }
    run.begin("region's name, far offsets and numbers of 9 and up");
    for offset in [u64::MAX, u64::MAX - 12, 1 << 63, 1 << 32] {
        for region in 0..=9 {
            let buffer = run.random.nine_bytes().to_vec();
            run.ask_plan(PlanCall::region_name(region, buffer, offset));
        }
    }
    for _ in 0..run.times(20_000) {
        let region = (run.random.next() as u32).max(9);
        let room = run.random.below(40);
        let buffer = (0..room).map(|_| run.random.byte()).collect();
        let offset = run.random.below(42) as u64;
        run.ask_plan(PlanCall::region_name(region, buffer, offset));
    }
}
