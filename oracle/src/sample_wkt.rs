//! The sample's lines of shapes' texts, by request R-9's rules: read and refused, written and refused.

use crate::ours::plans::PlanCall;
use crate::ours::shape_room::ShapeRoom;
use crate::outline_pieces::numbers;
use crate::random::Random;
use crate::rule_outline::FARTHEST;
use crate::rule_wkt::{ALL_KINDS, Kind, text_of};
use crate::sample_line::MOST_GIVEN;
use crate::wkt_pieces::{FAR_NUMBERS, IN_GRAMMAR, LOOSE, STOPPED, TIGHT, good_text, shape, value};

/// Of its own, so that the lines above don't hang on these.
const SEED: u64 = 9;

/// What the numbers lent for reading are before the call.
const HELD: i32 = 9;

pub const HEAD: &str = "\
# J misonkandi_read_wkt, the text given; due are the three numbers of the answer, 8 bytes each, then the 128 of the
# corners, 4 bytes each: all of them were 9 before. U misonkandi_write_wkt, the first cell the kind, the dimension how
# many numbers, the offset a times 2^32 plus b; given are the numbers, 4 bytes each, then the buffer; both are due.
# J, U: request R-9's rules alone (oracle/src/rule_wkt.rs); the crate reads and writes no texts. The place of a refusal
# that is beyond 255 is 255 in the word, and whole in the third number of the answer.
";

pub fn calls() -> Vec<PlanCall> {
    let random = &mut Random::new(SEED);
    let mut texts: Vec<Vec<u8>> = IN_GRAMMAR.map(|text| text.as_bytes().to_vec()).to_vec();
    texts.extend(STOPPED.map(|barred| barred.replace('|', "").into_bytes()));
    texts.extend(cut());
    texts.extend(counts());
    texts.extend(limits());
    texts.extend(far_places());
    texts.extend(several(random));
    let mut calls: Vec<PlanCall> = texts.into_iter().map(read).collect();
    calls.extend(shapes_written(random));
    calls.extend(no_shapes_written());
    calls.extend(offsets(random));
    calls
}

fn read(text: Vec<u8>) -> PlanCall {
    PlanCall::read_wkt(text, &ShapeRoom::filled(HELD))
}

/// A text cut at every byte.
fn cut() -> Vec<Vec<u8>> {
    let text = b"Polygon ((-1 0,4 0,0 3,-1 0))";
    (0..text.len()).map(|end| text[..end].to_vec()).collect()
}

/// As many pairs as there may be, one more, one fewer; closed and open.
fn counts() -> Vec<Vec<u8>> {
    let mut texts = Vec::new();
    for pairs in [3, 63, 64, 65, 66, 67] {
        let start: Vec<String> = (1..pairs).map(|k| format!("{k} {}", k % 7)).collect();
        let start = start.join(",");
        texts.push(format!("LINESTRING({start},-1 -1)"));
        texts.push(format!("POLYGON(({start},01 1))"));
        texts.push(format!("polygon(({start},1 2))"));
    }
    texts.into_iter().map(String::into_bytes).collect()
}

/// Every second number that is out of range, and the farthest ones that aren't, at some place.
fn limits() -> Vec<Vec<u8>> {
    let near = ["1000000000", "-1000000000", "999999999", "-0001000000000"];
    let far = FAR_NUMBERS.into_iter().step_by(2);
    let mut texts = Vec::new();
    for (place, number) in near.into_iter().chain(far).enumerate() {
        texts.push(match place % 4 {
            0 => format!("POINT ({number} 5)"),
            1 => format!("LINESTRING(1 2, 3 {number})"),
            2 => format!("POLYGON(({number} 0,1 1,2 2,{number} 0))"),
            _ => format!("POINT(-5 {number})"),
        });
    }
    let (zeros, nines) = ("0".repeat(500), "9".repeat(500));
    texts.push(format!("POINT({zeros} 5)"));
    texts.push(format!("POINT(-{zeros}7 5)"));
    texts.push(format!("POINT({nines} 5)"));
    texts.into_iter().map(String::into_bytes).collect()
}

/// About 255, and as far as a line has room for.
fn far_places() -> Vec<Vec<u8>> {
    let mut texts = Vec::new();
    for place in [254, 255, 256, 599] {
        let spaces = " ".repeat(place - 6);
        texts.push(format!("POINT({spaces}+"));
        texts.push(format!("POINT({spaces}"));
    }
    texts.into_iter().map(String::into_bytes).collect()
}

/// Good ones in any spelling, cut where a line has no more room.
fn several(random: &mut Random) -> Vec<Vec<u8>> {
    let mut texts = Vec::new();
    for kind in ALL_KINDS {
        for most in [3, 6, 10] {
            for spelling in [TIGHT, LOOSE] {
                let mut text = good_text(random, kind, most, spelling);
                text.truncate(MOST_GIVEN);
                texts.push(text);
            }
        }
    }
    texts
}

/// A buffer that isn't zeros.
fn buffer(count: usize) -> Vec<u8> {
    (0..count).map(|place| 0xA0 + (place % 16) as u8).collect()
}

/// Written behind a byte, with one left after it.
fn written(kind: Kind, numbers: &[i32]) -> PlanCall {
    let text = text_of(kind as u32, numbers).expect("a shape");
    PlanCall::write_wkt(kind as u32, numbers, buffer(text.len() + 2), 1)
}

/// Numbers of each count of digits; shapes of all kinds.
fn shapes_written(random: &mut Random) -> Vec<PlanCall> {
    let mut calls = Vec::new();
    for digits in 0..=9 {
        let power = 10_i32.pow(digits);
        calls.push(written(Kind::Point, &[power, 1 - power]));
        calls.push(written(Kind::Line, &[power - 1, -power, 0, power]));
    }
    for most in [3, 4, 6, 10] {
        for kind in ALL_KINDS {
            let shape = shape(random, kind, most);
            calls.push(written(kind, &numbers(&shape.corners)));
        }
    }
    let many: Vec<i32> = (0..76).map(|k| k % 10).collect();
    calls.push(written(Kind::Line, &many));
    calls.push(written(Kind::Polygon, &many));
    calls
}

/// Kinds that there aren't, wrong counts, numbers out of range; several of these at once, and no room, so that the
/// order shows: 16, 17, 12.
fn no_shapes_written() -> Vec<PlanCall> {
    let mut calls = Vec::new();
    let mut refused = |kind: u32, numbers: &[i32], room: usize| {
        calls.push(PlanCall::write_wkt(kind, numbers, buffer(room), 0));
    };
    for kind in [0, 4, 255] {
        refused(kind, &[1, 2], 40);
        refused(kind, &[1, 2, 3, 4, 5, 6], 80);
    }
    for count in [0, 1, 2, 3, 4, 6, 7, 128, 130] {
        for kind in ALL_KINDS {
            refused(kind as u32, &vec![3; count], 60);
        }
    }
    for number in [FARTHEST + 1, i32::MIN] {
        refused(1, &[number, 0], 40);
        refused(2, &[0, 0, 0, number], 0);
        refused(3, &[0, 0, number, 0, 1, 1], 80);
        refused(3, &[number, number], 0);
        refused(2, &[number, 0, 1], 40);
        refused(4, &[number, 0], 0);
    }
    calls
}

/// Offsets about the last one with room, offsets that no small buffer has, and 64 corners, for which there is no room.
fn offsets(random: &mut Random) -> Vec<PlanCall> {
    let mut calls = Vec::new();
    for kind in ALL_KINDS {
        let shape = shape(random, kind, 3);
        let numbers = numbers(&shape.corners);
        let length = text_of(kind as u32, &numbers).expect("a shape").len();
        let whole = length as u64 + 4;
        let mut add = |room: usize, offset: u64| {
            let buffer = buffer(room);
            calls.push(PlanCall::write_wkt(kind as u32, &numbers, buffer, offset));
        };
        for offset in [0, 4, 5, whole, whole + 1, (1 << 32) + 4, u64::MAX] {
            add(length + 4, offset);
        }
        for room in [0, length - 1, length] {
            add(room, 0);
        }
    }
    let most: Vec<i32> = (0..128).map(|_| value(random)).collect();
    for kind in [2, 3] {
        calls.push(PlanCall::write_wkt(kind, &most, buffer(88), 0));
    }
    calls
}
