//! Pieces that shapes and their texts are made of, spelled in every way that is read, and damaged.

use crate::outline_pieces::{ALL_SIZES, coordinate};
use crate::random::Random;
use crate::rule_outline::{Corner, FARTHEST};
use crate::rule_wkt::{ALL_KINDS, Kind, Shape};

/// How many spaces may stand where one may, and how many zeros before a number: each as often as it is listed.
#[derive(Clone, Copy)]
pub struct Spelling {
    spaces: &'static [usize],
    zeros: &'static [usize],
}

/// Mostly no more bytes than are needed.
pub const TIGHT: Spelling = Spelling {
    spaces: &[0, 0, 0, 0, 0, 0, 1],
    zeros: &[0, 0, 0, 0, 0, 0, 1],
};
pub const LOOSE: Spelling = Spelling {
    spaces: &[0, 0, 1, 1, 2, 3],
    zeros: &[0, 0, 0, 0, 1, 2, 9, 10, 11, 20],
};
pub const WIDE: Spelling = Spelling {
    spaces: &[0, 1, 2, 7, 40, 300],
    zeros: &[0, 1, 10, 40, 300],
};
pub const ALL_SPELLINGS: [Spelling; 3] = [TIGHT, LOOSE, WIDE];

/// Numbers that are out of range, many of which would be in range if their high bits or digits were lost.
pub const FAR_NUMBERS: [&str; 28] = [
    "1000000001",
    "-1000000001",
    "1000000009",
    "1100000000",
    "2000000000",
    "2147483647",
    "2147483648",
    "-2147483648",
    "-2147483649",
    "4294967295",
    "4294967296",
    "4294967297",
    "-4294967297",
    "5294967296",
    "8589934592",
    "9999999999",
    "10000000000",
    "10000000001",
    "-10000000000",
    "9223372036854775807",
    "-9223372036854775808",
    "9223372036854775809",
    "18446744073709551615",
    "18446744073709551616",
    "18446744073709551617",
    "36893488147419103233",
    "340282366920938463463374607431768211456",
    "-340282366920938463463374607431768211457",
];

/// Texts of the grammar: good ones, and those that are refused for their counts, their numbers or their ring.
pub const IN_GRAMMAR: [&str; 27] = [
    "POINT(1 2)",
    "point (1 2)",
    "pOiNt  (  -1   02  )",
    "POINT(-0 000)",
    "POINT(1000000000 -1000000000)",
    "POINT(-01000000000 0001000000000)",
    "POINT(1000000001 0)",
    "POINT(0 -1000000001)",
    "POINT(4294967297 0)",
    "POINT(0 18446744073709551616)",
    "LINESTRING(1 2)",
    "LINESTRING(1 2,3 4)",
    "LineString ( 1 2 , 3 4 , -5 6 )",
    "LINESTRING(7 7,7 7)",
    "LINESTRING(1000000001 2)",
    "LINESTRING(0 0,0 2147483648)",
    "POLYGON((0 0,4 0,0 3,0 0))",
    "polygon ( ( 0 0 , 4 0 , 0 3 , -0 00 ) )",
    "POLYGON((0 0,0 0,0 0,0 0))",
    "POLYGON((1 2))",
    "POLYGON((0 0,1 1,0 0))",
    "POLYGON((1000000001 2,1 1,2 2))",
    "POLYGON((1000000001 2,1 1,2 2,3 3))",
    "POLYGON((0 0,1 1,2 2,4294967296 0))",
    "POLYGON((0 2,1 1,2 2,0 3))",
    "POLYGON((0 2,1 1,2 2,2 0))",
    "POLYGON((1 2,1 1,2 2,-1 2))",
];

/// Texts that are refused, 19, each at its bar; it isn't part of them.
pub const STOPPED: [&str; 64] = [
    "|",
    "P|",
    "POI|",
    "|X",
    "|(",
    "|OINT(1 2)",
    "PO|",
    "POL|",
    "PO|X",
    "POIn|X",
    "POINT|",
    "POINT|X",
    "POINT|\t(1 2)",
    "POINT|1 2",
    "POINT |EMPTY",
    "POINT|EMPTY",
    "POINT |Z(1 2)",
    "POINT(|(",
    "POINT(|(1 2))",
    "POINT(1 2|,3 4)",
    "POINT(1 2 |3)",
    "POINT(|)",
    "POINT(1|)",
    "POINT(1|,2)",
    "POINT(1 |,2)",
    "POINT(1|-2)",
    "POINT(1 -|-2)",
    "POINT(-| 1 2)",
    "POINT(|+1 2)",
    "POINT(1|.5 2)",
    "POINT(1|e5 2)",
    "POINT(|.5 2)",
    "POINT(-|-1 2)",
    "POINT(1|\t2)",
    "POINT(1 2)| ",
    "| POINT(1 2)",
    "POINT(1 2)|)",
    "POINT(1 2)|\0",
    "POINT(1 2|",
    "POINT(1 2  |",
    "POINT(1|",
    "POINT(1 |",
    "POINT(1 -|",
    "POINT(|\u{a0}1 2)",
    "LINESTRING(|)",
    "LINESTRING |EMPTY",
    "LINESTRING(|(1 2,3 4))",
    "LINESTRING(1 2,|)",
    "LINESTRING(1 2,|,3 4)",
    "LINESTRING(1 2|;3 4)",
    "LINESTRING(1 2 |3 4)",
    "LINE|(1 2,3 4)",
    "LINESTRING(1 2,3|,4 5)",
    "LINESTRING(1 2,3 4|",
    "LINESTRING|Z(1 2,3 4)",
    "LINES|",
    "POLYGON(|1 2)",
    "POLYGON((|))",
    "POLYGON((0 0,4 0,0 3,0 0)|",
    "POLYGON((0 0,4 0,0 3,0 0)|,(1 1,2 1,1 2,1 1))",
    "POLYGON((0 0,4 0,0 3,0 0) )| ",
    "POLYGON((|(1 2)))",
    "|MULTIPOINT(1 2)",
    "|GEOMETRYCOLLECTION(POINT(1 2))",
];

/// The limits, and each count of digits with what lies beside it.
pub fn edge_values() -> Vec<i32> {
    let powers = (0..=9).map(|digits| 10_i32.pow(digits));
    let near = powers.flat_map(|power| [power - 1, power, (power + 1).min(FARTHEST)]);
    near.flat_map(|value| [value, -value]).collect()
}

/// As often of few digits as of many.
pub fn value(random: &mut Random) -> i32 {
    if random.below(2) == 0 {
        let size = random.pick(&ALL_SIZES);
        return coordinate(random, size);
    }
    let most = 10_usize.pow(random.below(10) as u32);
    random.below(most + 1) as i32 * random.pick(&[-1, 1])
}

pub fn kind(random: &mut Random) -> Kind {
    random.pick(&ALL_KINDS)
}

/// A shape that isn't refused, of so many corners at most.
pub fn shape(random: &mut Random, kind: Kind, most: usize) -> Shape {
    let counts = kind.corners();
    let (least, most) = (*counts.start(), most.clamp(*counts.start(), *counts.end()));
    let count = least + random.below(most - least + 1);
    let corners = (0..count).map(|_| (value(random), value(random)));
    Shape {
        kind,
        corners: corners.collect(),
    }
}

/// The numbers of a text as they are spelled, two a pair.
pub type Numbers = Vec<String>;

/// The pairs of a shape's text: a ring's first again at the end, maybe spelled otherwise.
pub fn spelled(random: &mut Random, shape: &Shape, spelling: Spelling) -> Numbers {
    let mut pairs: Vec<Corner> = shape.corners.clone();
    if shape.kind == Kind::Polygon {
        pairs.extend(shape.corners.first());
    }
    let mut number = |value: i32| {
        let negative = value < 0 || value == 0 && random.below(3) == 0;
        let minus = if negative { "-" } else { "" };
        let zeros = "0".repeat(random.pick(spelling.zeros));
        format!("{minus}{zeros}{}", value.unsigned_abs())
    };
    let pair = |(x, y): &Corner| [number(*x), number(*y)];
    pairs.iter().flat_map(pair).collect()
}

/// The keyword in any case, brackets, and commas between the pairs.
fn tokens(random: &mut Random, kind: Kind, numbers: &Numbers) -> Vec<String> {
    let brackets = if kind == Kind::Polygon { 2 } else { 1 };
    let keyword: String = match random.below(3) {
        0 => kind.keyword().into(),
        1 => kind.keyword().to_ascii_lowercase(),
        _ => {
            let any = |letter: u8| letter | random.pick(&[0, 32]);
            kind.keyword().bytes().map(any).map(char::from).collect()
        }
    };
    let mut tokens = vec![keyword];
    tokens.extend(vec!["(".into(); brackets]);
    for (place, pair) in numbers.chunks(2).enumerate() {
        tokens.extend((place > 0).then(|| ",".into()));
        tokens.extend_from_slice(pair);
    }
    tokens.extend(vec![")".into(); brackets]);
    tokens
}

fn ends_a_number(text: &[u8]) -> bool {
    text.last().is_some_and(u8::is_ascii_digit)
}

/// Tokens with spaces between them, at least one between two numbers.
fn spaced(random: &mut Random, tokens: &[String], spelling: Spelling) -> Vec<u8> {
    let mut text = Vec::new();
    for token in tokens {
        let apart = ends_a_number(&text) && ends_a_number(token.as_bytes());
        let spaces = match text.is_empty() {
            true => 0,
            false => random.pick(spelling.spaces).max(usize::from(apart)),
        };
        text.extend(vec![b' '; spaces]);
        text.extend(token.bytes());
    }
    text
}

/// So many pairs, more or fewer than a shape may have too; a ring closes.
pub fn numbers(random: &mut Random, kind: Kind, pairs: usize, spelling: Spelling) -> Numbers {
    let held = match kind {
        Kind::Polygon => pairs.saturating_sub(1).max(1),
        _ => pairs,
    };
    let corners = (0..held).map(|_| (value(random), value(random))).collect();
    let mut numbers = spelled(random, &Shape { kind, corners }, spelling);
    numbers.truncate(2 * pairs);
    numbers
}

/// One of the last pair's numbers is another, so that a ring is open.
pub fn open(random: &mut Random, numbers: &mut Numbers) {
    let other = value(random).to_string();
    let place = numbers.len().checked_sub(1 + random.below(2));
    if let Some(number) = place.and_then(|place| numbers.get_mut(place)) {
        *number = other;
    }
}

pub fn text(random: &mut Random, kind: Kind, numbers: &Numbers, spelling: Spelling) -> Vec<u8> {
    let tokens = tokens(random, kind, numbers);
    spaced(random, &tokens, spelling)
}

/// A text that isn't refused.
pub fn good_text(random: &mut Random, kind: Kind, most: usize, spelling: Spelling) -> Vec<u8> {
    let shape = shape(random, kind, most);
    let numbers = spelled(random, &shape, spelling);
    text(random, kind, &numbers, spelling)
}

/// Tokens in any order.
pub fn any_tokens(random: &mut Random) -> Vec<u8> {
    const ALL: [&str; 26] = [
        "POINT",
        "point",
        "LINESTRING",
        "Polygon",
        "POLYGON",
        "EMPTY",
        "POI",
        "Z",
        "(",
        "(",
        "(",
        ")",
        ")",
        ")",
        ",",
        ",",
        "-",
        "+",
        "0",
        "1",
        "-2",
        "30",
        "-0",
        "1000000000",
        "1.5",
        "\t",
    ];
    let count = 1 + random.below(12);
    let mut tokens: Vec<String> = (0..count).map(|_| random.pick(&ALL).into()).collect();
    if random.below(4) != 0 {
        tokens[0] = kind(random).keyword().into();
    }
    spaced(random, &tokens, TIGHT)
}

/// The bytes that a text may have, those beside each of them, with their highest bit, and some that are taken for
/// spaces.
pub fn near_bytes() -> Vec<u8> {
    let letters = ALL_KINDS.map(Kind::keyword).concat();
    let all = [" (),-0123456789", &letters, &letters.to_ascii_lowercase()].concat();
    let near = |byte: u8| [byte - 1, byte, byte + 1, byte | 128];
    let mut bytes: Vec<u8> = all.bytes().flat_map(near).collect();
    bytes.extend([0, b'\t', b'\n', b'\r', 11, 12, 127, 133, 255]);
    bytes.sort_unstable();
    bytes.dedup();
    bytes
}

/// The text with each of these bytes in the place of the one that stands there.
pub fn changed<'a>(
    text: &'a [u8],
    place: usize,
    bytes: &'a [u8],
) -> impl Iterator<Item = Vec<u8>> + 'a {
    let others = bytes.iter().filter(move |byte| **byte != text[place]);
    others.map(move |byte| {
        let mut text = text.to_vec();
        text[place] = *byte;
        text
    })
}

/// The text with each of these bytes before the one that stands there.
pub fn inserted<'a>(
    text: &'a [u8],
    place: usize,
    bytes: &'a [u8],
) -> impl Iterator<Item = Vec<u8>> + 'a {
    bytes.iter().map(move |byte| {
        let mut text = text.to_vec();
        text.insert(place, *byte);
        text
    })
}

pub fn without(text: &[u8], place: usize) -> Vec<u8> {
    let mut text = text.to_vec();
    text.remove(place);
    text
}
