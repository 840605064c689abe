//! Shapes read from texts: good ones in every spelling, every bound, every byte changed, and all that is refused.
//!
//! The crate reads no texts, so these calls are held to request R-9's rules alone.

use super::Run;
use crate::ours::plans::PlanCall;
use crate::ours::shape_room::ShapeRoom;
use crate::random::Random;
use crate::rule_wkt::{ALL_KINDS, Kind};
use crate::wkt_pieces::{
    FAR_NUMBERS, IN_GRAMMAR, LOOSE, STOPPED, Spelling, TIGHT, WIDE, any_tokens, changed,
    edge_values, good_text, inserted, kind, near_bytes, numbers, open, text, without,
};

pub fn compare(run: &mut Run) {
    every_count(run);
    every_bound(run);
    every_byte(run);
    long_texts(run);
    several_faults(run);
    very_long(run);
    at_random(run);
}

/// What is lent holds any numbers before: what isn't written must be the same afterwards.
fn ask(run: &mut Run, text: Vec<u8>) {
    let room = ShapeRoom {
        answer: std::array::from_fn(|_| run.random.next()),
        xy: std::array::from_fn(|_| run.random.next() as i32),
    };
    run.ask_plan(PlanCall::read_wkt(text, &room));
}

/// The widest makes long texts, and comes seldom.
fn some_spelling(random: &mut Random) -> Spelling {
    match random.below(20) {
        0 => WIDE,
        1..10 => TIGHT,
        _ => LOOSE,
    }
}

fn every_count(run: &mut Run) {
    run.begin("text read, each kind with 0 to 67 pairs, in every spelling, rings closed and open");
    for kind in ALL_KINDS {
        for pairs in 0..=67 {
            for _ in 0..run.times(60) {
                let spelling = some_spelling(&mut run.random);
                let mut numbers = numbers(&mut run.random, kind, pairs, spelling);
                if run.random.below(4) == 0 {
                    open(&mut run.random, &mut numbers);
                }
                let text = text(&mut run.random, kind, &numbers, spelling);
                ask(run, text);
            }
        }
    }
}

/// The first two pairs and the last two, or all of a few.
fn some_places(numbers: usize) -> impl Iterator<Item = usize> {
    (0..numbers).filter(move |place| *place < 6 || place + 4 >= numbers)
}

fn every_bound(run: &mut Run) {
    run.begin(
        "text read, numbers of every count of digits, at the limits and beyond, place by place",
    );
    let edges = edge_values().into_iter().map(|value| value.to_string());
    let all: Vec<String> = edges.chain(FAR_NUMBERS.map(String::from)).collect();
    for kind in ALL_KINDS {
        let (least, most) = kind.pairs().into_inner();
        for pairs in [least, least + 1, most - 1, most] {
            for place in some_places(2 * pairs) {
                for number in &all {
                    ask_with(run, kind, pairs, place, number);
                }
            }
        }
    }
}

/// One number set, some zeros before it, and in a ring's first pair mostly in the last one too.
fn ask_with(run: &mut Run, kind: Kind, pairs: usize, place: usize, number: &str) {
    let mut numbers = numbers(&mut run.random, kind, pairs, TIGHT);
    let zeros = "0".repeat(run.random.pick(&[0, 0, 1, 5, 30]));
    let spelled = match number.strip_prefix('-') {
        Some(size) => format!("-{zeros}{size}"),
        None => format!("{zeros}{number}"),
    };
    if kind == Kind::Polygon && place < 2 && run.random.below(4) != 0 {
        let last = numbers.len() - 2 + place;
        numbers[last] = number.into();
    }
    numbers[place] = spelled;
    let text = text(&mut run.random, kind, &numbers, LOOSE);
    ask(run, text);
}

/// The text cut at every byte, without each of its bytes, and with these bytes in each place and between any two.
fn ask_damaged(run: &mut Run, text: &[u8], set: &[u8], put_in: &[u8]) {
    for place in 0..text.len() {
        ask(run, text[..place].to_vec());
        ask(run, without(text, place));
        changed(text, place, set).for_each(|text| ask(run, text));
    }
    for place in 0..=text.len() {
        inserted(text, place, put_in).for_each(|text| ask(run, text));
    }
    ask(run, text.to_vec());
}

fn every_byte(run: &mut Run) {
    run.begin(
        "text read, short ones cut, with each byte left out, set to every value, put in everywhere",
    );
    let (all, near): (Vec<u8>, _) = ((0..=255).collect(), near_bytes());
    for text in IN_GRAMMAR {
        ask_damaged(run, text.as_bytes(), &all, &all);
    }
    for kind in ALL_KINDS {
        for spelling in [TIGHT, LOOSE] {
            for _ in 0..run.times(30) {
                let text = good_text(&mut run.random, kind, 3, spelling);
                ask_damaged(run, &text, &all, &near);
            }
        }
    }
    run.begin("text read, refused ones with the same done to them");
    for barred in STOPPED {
        let text = barred.replace('|', "");
        ask_damaged(run, text.as_bytes(), &near, &near);
    }
}

fn long_texts(run: &mut Run) {
    run.begin("text read, up to 67 pairs: the same with the grammar's bytes and those beside them");
    let (near, few) = (near_bytes(), b" (),-09Pn\t+".to_vec());
    for (kind, pairs) in [(Kind::Line, 64), (Kind::Polygon, 65)] {
        for more in [0, 1] {
            let numbers = numbers(&mut run.random, kind, pairs + more, TIGHT);
            let text = text(&mut run.random, kind, &numbers, TIGHT);
            ask_damaged(run, &text, &near, &few);
        }
        for _ in 0..run.times(12) {
            let text = good_text(&mut run.random, kind, 20, LOOSE);
            ask_damaged(run, &text, &near, &few);
        }
    }
}

/// So that the order of the refusals shows.
fn several_faults(run: &mut Run) {
    run.begin("text read, no fault up to four at once");
    for _ in 0..run.times(60_000) {
        let kind = kind(&mut run.random);
        let pairs = run
            .random
            .pick(&[1, 2, 3, 3, 4, 4, 5, 5, 6, 8, 63, 64, 65, 66]);
        let mut numbers = numbers(&mut run.random, kind, pairs, TIGHT);
        if run.random.below(2) == 0 {
            open(&mut run.random, &mut numbers);
        }
        if run.random.below(2) == 0 {
            let place = run.random.below(numbers.len());
            numbers[place] = run.random.pick(&FAR_NUMBERS).into();
        }
        let mut text = text(&mut run.random, kind, &numbers, TIGHT);
        if run.random.below(4) == 0 {
            let place = run.random.below(text.len());
            text[place] = run.random.pick(b" (),-+.0129PpXx\t\0");
        }
        ask(run, text);
    }
}

/// Counts, digits and places that would be others if their high bits were lost.
fn very_long(run: &mut Run) {
    run.begin("text read, up to 70,000 pairs, digits and spaces");
    for many in [
        250, 255, 256, 257, 260, 300, 320, 321, 65_535, 65_536, 65_538, 65_540, 65_600, 70_000,
    ] {
        let spaces = " ".repeat(many);
        let zeros = "0".repeat(many);
        let nines = "9".repeat(many);
        let pairs = "0 0,".repeat(many);
        for text in [
            format!("POINT{spaces}(1 2)"),
            format!("POINT(1{spaces}2)"),
            format!("POINT(1 2{spaces}"),
            format!("POINT({spaces}X"),
            format!("POINT(1 -{zeros}7)"),
            format!("POINT(1 {nines})"),
            format!("POINT({zeros}{nines} 2)"),
            format!("POINT({zeros}1000000000 -{zeros}1000000001)"),
            format!("LINESTRING({pairs}1 1)"),
            format!("LINESTRING({pairs}1 1"),
            format!("POLYGON(({pairs}0 0))"),
            format!("POLYGON(({pairs}{nines} 0))"),
            format!("POLYGON(({pairs}))"),
        ] {
            ask(run, text.into_bytes());
        }
        // They are long: not too many at once.
        run.answer_waiting();
    }
}

fn at_random(run: &mut Run) {
    run.begin("text read, tokens in any order");
    for _ in 0..run.times(150_000) {
        let text = any_tokens(&mut run.random);
        ask(run, text);
    }
    run.begin("text read, any bytes, and any bytes behind the start of a good text");
    let near = near_bytes();
    for _ in 0..run.times(60_000) {
        let count = run.random.below(24);
        let random = &mut run.random;
        let any: Vec<u8> = (0..count).map(|_| random.byte()).collect();
        let some: Vec<u8> = (0..count).map(|_| random.pick(&near)).collect();
        let kind = kind(random);
        let mut start = good_text(random, kind, 4, TIGHT);
        start.truncate(random.below(start.len() + 1));
        start.extend(&some);
        ask(run, any);
        ask(run, some);
        ask(run, start);
    }
}
