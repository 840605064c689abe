//! Request R-9's rules for shapes as WKT text: the grammar, what is refused and in which order, and the one spelling.

use crate::rule::refusal;
use crate::rule_language::{Language, Reader, one_of};
use crate::rule_outline::{Corner, FARTHEST, OUT_OF_RANGE, WRONG_COUNT};
use std::ops::RangeInclusive;
use std::sync::LazyLock;

pub const BAD_TEXT: u32 = refusal(19);
pub const NOT_CLOSED: u32 = refusal(22);

/// The most bytes of a text in the one spelling.
pub const LONGEST_TEXT: usize = 1635;

#[derive(Clone, Copy, Debug, PartialEq, Eq)]
pub enum Kind {
    Point = 1,
    Line = 2,
    Polygon = 3,
}

pub const ALL_KINDS: [Kind; 3] = [Kind::Point, Kind::Line, Kind::Polygon];

impl Kind {
    pub fn keyword(self) -> &'static str {
        match self {
            Kind::Point => "POINT",
            Kind::Line => "LINESTRING",
            Kind::Polygon => "POLYGON",
        }
    }

    /// "up to 64 corners (a line 2 to 64 pairs, a ring 4 to 65 with its repeat)"
    pub fn pairs(self) -> RangeInclusive<usize> {
        match self {
            Kind::Point => 1..=1,
            Kind::Line => 2..=64,
            Kind::Polygon => 4..=65,
        }
    }

    /// "Rings must repeat the first corner at the end; the shape holds it once."
    pub fn corners(self) -> RangeInclusive<usize> {
        match self {
            Kind::Polygon => 3..=64,
            other => other.pairs(),
        }
    }

    fn by_number(number: u32) -> Option<Kind> {
        ALL_KINDS.into_iter().find(|kind| *kind as u32 == number)
    }
}

#[derive(Clone, Debug, PartialEq, Eq)]
pub struct Shape {
    pub kind: Kind,
    pub corners: Vec<Corner>,
}

/// A refusal without its place, and the place: 0 for all but 19.
#[derive(Clone, Copy, Debug, PartialEq, Eq)]
struct Refused {
    refusal: u32,
    place: usize,
}

impl Refused {
    fn with(refusal: u32) -> Self {
        Refused { refusal, place: 0 }
    }

    /// The place has one byte in a word.
    fn word(self) -> u32 {
        self.refusal + self.place.min(255) as u32
    }
}

fn in_order<const N: usize>(parts: [Language; N]) -> Language {
    let all = parts.into_iter();
    all.reduce(Language::then).expect("a part at least")
}

/// "keywords in any case"
fn keyword(letters: &str) -> Language {
    let either = |letter: u8| one_of(&[letter.to_ascii_uppercase(), letter.to_ascii_lowercase()]);
    let all = letters.bytes().map(either);
    all.reduce(Language::then).expect("a letter at least")
}

fn spaces() -> Language {
    one_of(b" ").many()
}

fn in_brackets(inside: Language) -> Language {
    in_order([one_of(b"("), spaces(), inside, spaces(), one_of(b")")])
}

/// "A number is an optional minus and digits"
fn number() -> Language {
    let digit = one_of(b"0123456789");
    let size = digit.clone().then(digit.many());
    one_of(b"-").then(size.clone()).or(size)
}

/// "POINT, LINESTRING and POLYGON with a single ring", "spaces between any two tokens, at least one between two
/// numbers"
fn grammar() -> Language {
    let pair = in_order([number(), one_of(b" "), spaces(), number()]);
    let next = in_order([spaces(), one_of(b","), spaces(), pair.clone()]);
    let list = pair.clone().then(next.many());
    let shape = |kind: Kind, body| in_order([keyword(kind.keyword()), spaces(), body]);
    let point = shape(Kind::Point, in_brackets(pair));
    let line = shape(Kind::Line, in_brackets(list.clone()));
    let polygon = shape(Kind::Polygon, in_brackets(in_brackets(list)));
    point.or(line).or(polygon)
}

static READER: LazyLock<Reader> = LazyLock::new(|| Reader::new(grammar()));

/// "19 with the place of the first byte at which no text of this grammar, taken without corner counts, ranges and ring
/// closing, could go on, the end of the text included; then 16 for a wrong corner count, 17 for a number out of range,
/// 22 for a ring not closed."
fn read(text: &[u8]) -> Result<Shape, Refused> {
    READER.read(text).map_err(|place| Refused {
        refusal: BAD_TEXT,
        place,
    })?;
    let text = std::str::from_utf8(text).expect("the grammar has ASCII bytes alone");
    let spelled_so = |kind: &Kind| {
        let start = text.get(..kind.keyword().len());
        start.is_some_and(|start| start.eq_ignore_ascii_case(kind.keyword()))
    };
    let kind = ALL_KINDS.into_iter().find(spelled_so).expect("a keyword");
    let numbers = numbers(text);
    if !kind.pairs().contains(&(numbers.len() / 2)) {
        return Err(Refused::with(WRONG_COUNT));
    }
    let values: Option<Vec<i32>> = numbers.into_iter().map(value).collect();
    let values = values.ok_or(Refused::with(OUT_OF_RANGE))?;
    let mut corners: Vec<Corner> = values.chunks_exact(2).map(|xy| (xy[0], xy[1])).collect();
    if kind == Kind::Polygon && corners.pop() != corners.first().copied() {
        return Err(Refused::with(NOT_CLOSED));
    }
    Ok(Shape { kind, corners })
}

/// The numbers of a text of the grammar: whatever stands between other bytes than digits and minus.
fn numbers(text: &str) -> Vec<&str> {
    let parts = text.split(|byte: char| !byte.is_ascii_digit() && byte != '-');
    parts.filter(|part| !part.is_empty()).collect()
}

/// The value of a number of any length, if it is in range: no more digits than the farthest, zeros before it aside.
fn value(number: &str) -> Option<i32> {
    let digits = number.trim_start_matches('-').trim_start_matches('0');
    if digits.len() > FARTHEST.to_string().len() {
        return None;
    }
    let size: i64 = format!("0{digits}").parse().expect("a few digits");
    let value = if number.starts_with('-') { -size } else { size };
    let value = i32::try_from(value).ok()?;
    (-FARTHEST..=FARTHEST).contains(&value).then_some(value)
}

/// What is lent to be written holds the shape and its kind's number afterwards, or of a refusal the place alone.
pub fn read_into(text: &[u8], answer: &mut [u64; 3], xy: &mut [i32]) -> u32 {
    match read(text) {
        Ok(Shape { kind, corners }) => {
            *answer = [kind as u64, corners.len() as u64, 0];
            for (two, (x, y)) in xy.chunks_exact_mut(2).zip(corners) {
                two.copy_from_slice(&[x, y]);
            }
            0
        }
        Err(refused) => {
            answer[2] = refused.place as u64;
            refused.word()
        }
    }
}

/// "capital keyword, one space after it, one space in a pair, a comma and a space between pairs, no other space, no
/// leading zeros, no minus on zero"
fn text(shape: &Shape) -> String {
    let repeated = match shape.kind {
        Kind::Polygon => shape.corners.first(),
        _ => None,
    };
    let corners = shape.corners.iter().chain(repeated);
    let pairs: Vec<String> = corners.map(|(x, y)| format!("{x} {y}")).collect();
    let list = pairs.join(", ");
    let keyword = shape.kind.keyword();
    match shape.kind {
        Kind::Polygon => format!("{keyword} (({list}))"),
        _ => format!("{keyword} ({list})"),
    }
}

/// "Writing: 16, 17, then 12 when the text doesn't fit from the offset." 12 is left to who has the buffer.
pub fn text_of(kind: u32, numbers: &[i32]) -> Result<String, u32> {
    let kind = Kind::by_number(kind).ok_or(WRONG_COUNT)?;
    let (pairs, left_over) = numbers.as_chunks::<2>();
    if !left_over.is_empty() || !kind.corners().contains(&pairs.len()) {
        return Err(WRONG_COUNT);
    }
    let far = |number: &i32| !(-FARTHEST..=FARTHEST).contains(number);
    if numbers.iter().any(far) {
        return Err(OUT_OF_RANGE);
    }
    let corners = pairs.iter().map(|[x, y]| (*x, *y)).collect();
    Ok(text(&Shape { kind, corners }))
}

#[cfg(test)]
mod tests {
    use super::*;
    use crate::wkt_pieces::STOPPED;

    fn refused(text: &str) -> (u32, usize) {
        let refused = read(text.as_bytes()).expect_err(text);
        (refused.refusal, refused.place)
    }

    fn shape(kind: Kind, corners: &[Corner]) -> Result<Shape, Refused> {
        let corners = corners.to_vec();
        Ok(Shape { kind, corners })
    }

    /// So many pairs, the last like the first.
    fn pairs(count: usize) -> String {
        let mut pairs: Vec<String> = (1..count).map(|k| format!("{k} -{k}")).collect();
        pairs.push("1 -1".into());
        pairs.join(",")
    }

    #[test]
    fn what_the_grammar_has() {
        use Kind::{Line, Point, Polygon};
        let triangle = [(0, 0), (4, 0), (0, 3)];
        for (text, kind, corners) in [
            ("POINT(1 2)", Point, &[(1, 2)][..]),
            ("pOiNt   (  -1      02  )", Point, &[(-1, 2)]),
            ("POINT(-0 -00)", Point, &[(0, 0)]),
            ("LineString(1 2,3 4 , 5 6)", Line, &[(1, 2), (3, 4), (5, 6)]),
            ("linestring (7 7,7 7)", Line, &[(7, 7), (7, 7)]),
            ("POLYGON((0 0,4 0,0 3,0 0))", Polygon, &triangle),
            (
                "polygon ( ( 0 0 , 4 0 , 0 3 , -0 00 ) )",
                Polygon,
                &triangle,
            ),
            (
                "POLYGON((0 0,0 0,0 0,0 0))",
                Polygon,
                &[(0, 0), (0, 0), (0, 0)],
            ),
        ] {
            assert_eq!(read(text.as_bytes()), shape(kind, corners), "{text}");
        }
    }

    #[test]
    fn the_place_at_which_no_text_could_go_on() {
        for barred in STOPPED {
            let place = barred.find('|').expect("a bar");
            let text = barred.replace('|', "");
            assert_eq!(refused(&text), (BAD_TEXT, place), "{barred}");
        }
    }

    #[test]
    fn every_shorter_text_ends_early() {
        for text in [
            "POINT(-1 20)",
            "Linestring ( 1 2, 3 4)",
            "POLYGON((0 0,4 0,0 3,0 0))",
        ] {
            for end in 0..text.len() {
                assert_eq!(refused(&text[..end]), (BAD_TEXT, end), "{}", &text[..end]);
            }
        }
    }

    #[test]
    fn a_place_beyond_255_in_full_and_in_a_word() {
        for place in [254, 255, 256, 70_000] {
            let text = format!("POINT{}+", " ".repeat(place - 5));
            let refused = read(text.as_bytes()).expect_err("a plus");
            assert_eq!(refused.place, place);
            assert_eq!(refused.word(), BAD_TEXT + place.min(255) as u32);
        }
    }

    #[test]
    fn counts_of_pairs() {
        for (start, end, good) in [("LINESTRING(", ")", 2..=64), ("POLYGON((", "))", 4..=65)] {
            for count in 1..=400 {
                let text = format!("{start}{}{end}", pairs(count));
                let told = read(text.as_bytes()).map(|shape| shape.corners.len());
                let held = count - usize::from(end.len() == 2);
                let due = match good.contains(&count) {
                    true => Ok(held),
                    false => Err(Refused::with(WRONG_COUNT)),
                };
                assert_eq!(told, due, "{text}");
            }
        }
    }

    #[test]
    fn ranges_of_numbers() {
        let told = |number: &str| {
            let text = format!("POINT(7 {number})");
            let shape = read(text.as_bytes()).map_err(|refused| refused.word());
            shape.map(|shape| shape.corners[0].1)
        };
        for (number, value) in [
            ("1000000000", FARTHEST),
            ("-1000000000", -FARTHEST),
            ("0000000000000000001000000000", FARTHEST),
            ("-000000000000", 0),
            ("999999999", 999_999_999),
        ] {
            assert_eq!(told(number), Ok(value), "{number}");
        }
        for number in [
            "1000000001",
            "-1000000001",
            "01000000001",
            "2147483648",
            "4294967295",
            "4294967296",
            "4294967297",
            "10000000000",
            "18446744073709551616",
            "18446744073709551617",
            "-340282366920938463463374607431768211457",
        ] {
            assert_eq!(told(number), Err(OUT_OF_RANGE), "{number}");
        }
        assert_eq!(told(&"0".repeat(5000)), Ok(0));
        assert_eq!(told(&"1".repeat(5000)), Err(OUT_OF_RANGE));
    }

    #[test]
    fn refusals_stand_in_the_request_s_order() {
        let word = |text: &str| refused(text).0;
        assert_eq!(word("LINESTRING(1000000001 2"), BAD_TEXT);
        assert_eq!(word("LINESTRING(1 2)"), WRONG_COUNT);
        assert_eq!(word("LINESTRING(1000000001 2)"), WRONG_COUNT);
        assert_eq!(word("POLYGON((1000000001 2,1 1,2 2))"), WRONG_COUNT);
        assert_eq!(word("POLYGON((1000000001 2,1 1,2 2,3 3))"), OUT_OF_RANGE);
        assert_eq!(word("POLYGON((0 0,1 1,2 2,4294967296 0))"), OUT_OF_RANGE);
        assert_eq!(word("POLYGON((0 2,1 1,2 2,0 3))"), NOT_CLOSED);
        assert_eq!(word("POLYGON((0 2,1 1,2 2,2 0))"), NOT_CLOSED);
        assert_eq!(word("POLYGON((1 2,1 1,2 2,-1 2))"), NOT_CLOSED);
    }

    #[test]
    fn the_one_spelling() {
        let written = |kind, numbers: &[i32]| text_of(kind, numbers);
        let same = |text: &str| Ok(text.to_string());
        assert_eq!(written(1, &[-7, 0]), same("POINT (-7 0)"));
        assert_eq!(written(2, &[1, 2, 3, 4]), same("LINESTRING (1 2, 3 4)"));
        let ring = [0, 0, 4, 0, 0, -1_000_000_000];
        let due = "POLYGON ((0 0, 4 0, 0 -1000000000, 0 0))";
        assert_eq!(written(3, &ring), same(due));
        let longest = text_of(3, &[-FARTHEST; 128]).expect("64 corners");
        assert_eq!(longest.len(), LONGEST_TEXT);
    }

    #[test]
    fn writing_refuses_a_kind_a_count_a_number() {
        for kind in [0, 4, 5, 257, u32::MAX] {
            assert_eq!(text_of(kind, &[FARTHEST + 1, 0]), Err(WRONG_COUNT));
        }
        for (kind, least, most) in [(1, 1, 1), (2, 2, 64), (3, 3, 64)] {
            for count in 0..200 {
                let good = count % 2 == 0 && (least..=most).contains(&(count / 2));
                let mut numbers = vec![5; count];
                assert_eq!(text_of(kind, &numbers).is_ok(), good, "{kind}, {count}");
                numbers.iter_mut().for_each(|number| *number = i32::MIN);
                let due = if good { OUT_OF_RANGE } else { WRONG_COUNT };
                assert_eq!(text_of(kind, &numbers), Err(due), "{kind}, {count}");
            }
        }
        assert_eq!(text_of(1, &[0, FARTHEST + 1]), Err(OUT_OF_RANGE));
    }

    /// "Reading what was written gives the same shape, and writing what was read a second time gives the same bytes."
    #[test]
    fn there_and_back() {
        let edges = [0, 1, -1, 9, 10, -10, 99_999, FARTHEST, -FARTHEST];
        for kind in ALL_KINDS {
            for count in kind.corners() {
                let corner = |k: usize| (edges[k * k % 9], edges[(k + count) % 9]);
                let corners = (0..count).map(corner).collect();
                let shape = Shape { kind, corners };
                let text = text(&shape);
                assert_eq!(read(text.as_bytes()), Ok(shape), "{text}");
            }
        }
        let shape = read(b"polygon( (-0 00,1 0  , 000 1,0 0) )").expect("a triangle");
        assert_eq!(text(&shape), "POLYGON ((0 0, 1 0, 0 1, 0 0))");
    }

    #[test]
    fn what_is_lent_stays_but_for_the_answer() {
        let told = |text: &str| {
            let (mut answer, mut xy) = ([9; 3], [9; 8]);
            let word = read_into(text.as_bytes(), &mut answer, &mut xy);
            (word, answer, xy)
        };
        let nines = [9; 8];
        let mut held = nines;
        held[..4].copy_from_slice(&[1, 2, 3, 4]);
        assert_eq!(told("LINESTRING(1 2,3 4)"), (0, [2, 2, 0], held));
        assert_eq!(told("LINESTRING(1 2,)"), (BAD_TEXT + 15, [9, 9, 15], nines));
        assert_eq!(told("LINESTRING(1 2)"), (WRONG_COUNT, [9, 9, 0], nines));
    }
}
