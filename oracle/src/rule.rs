//! Document 01's own rules, written down plainly and apart from the crate; `matches` by request R-5 of document 02.
//!
//! The crate answers no number and no place for a refusal, and can't be asked at all about bytes that aren't UTF-8,
//! about a none in `set`, about codes above 3 or about transposing. There these rules decide; elsewhere they are held
//! to the crate's answers like ours, but for the differences of `listed.rs`.

use crate::ours::{Call, Op};
use crate::rule_region;
use crate::rule_verdict;

/// The C interface's words: below this a word is an answer. A refusal is this, plus 256 times its number, plus the place
/// where there is one.
pub const REFUSED: u32 = 1 << 31;

pub const fn refusal(number: u32) -> u32 {
    REFUSED + 256 * number
}

pub const BAD_CODE: u32 = refusal(6);
pub const NOT_NINE: u32 = refusal(10);
pub const BAD_BYTE: u32 = refusal(11);

/// Document 01 names eleven predicates; the C interface says this for any other row, and for a text that is no name.
pub const NO_SUCH_ROW: u32 = u32::MAX;

/// Document 01's table, row by row.
pub const NAMES: [&str; 11] = [
    "disjoint",
    "intersects",
    "within",
    "contains",
    "equal_topo",
    "coveredby",
    "covers",
    "contains_properly",
    "touches",
    "crosses",
    "overlaps",
];

/// What a call must answer, and the nine bytes that it must leave.
#[derive(Clone, Debug, PartialEq, Eq)]
pub struct Outcome {
    pub word: u32,
    pub nine: [u8; 9],
}

/// "A larger number in a matrix given is read as 2 by every operation."
pub fn read(cells: &[u8; 9]) -> [u8; 9] {
    cells.map(|cell| cell.min(3))
}

/// Document 01's number of a refusal, or None for a word that is none.
pub fn number(word: u32) -> Option<u32> {
    let refuses = (REFUSED..NO_SUCH_ROW).contains(&word);
    refuses.then_some((word & !REFUSED) / 256)
}

pub fn refuses(word: u32) -> bool {
    number(word).is_some()
}

/// The row of a predicate's name.
fn row(name: &[u8]) -> u32 {
    let found = NAMES.iter().position(|known| known.as_bytes() == name);
    found.map_or(NO_SUCH_ROW, |row| row as u32)
}

pub fn outcome(call: &Call) -> Outcome {
    let same = |word| Outcome {
        word,
        nine: call.cells,
    };
    match call.op {
        Op::Predicates => same(predicates(&call.cells)),
        Op::Predicate if call.a >= 11 => same(NO_SUCH_ROW),
        Op::Predicate => same(predicates(&call.cells) >> call.a & 1),
        Op::Matches => same(matches(&call.cells, call.text())),
        Op::FromText => changed(call, letters(call.text())),
        Op::Raise => changed(call, raised(&call.cells, call.text())),
        Op::ToText => Outcome {
            word: 0,
            nine: text(&call.cells),
        },
        Op::Set => changed(call, set(call, |_, given| given)),
        Op::SetAtLeast => changed(call, set(call, u8::max)),
        Op::Transpose => changed(call, Ok(transposed(&call.cells))),
        Op::Verdict => same(rule_verdict::predicate(&call.cells, call.a)),
        Op::VerdictPattern => same(rule_verdict::pattern(&call.cells, call.text())),
        Op::PredicateNamed => same(row(call.text())),
        Op::Region => same(rule_region::region(&call.cells)),
        Op::RegionNamed => same(rule_region::named(call.text())),
    }
}

/// "A refusal returns the matrix given", and hands a larger number back as it is.
fn changed(call: &Call, result: Result<[u8; 9], u32>) -> Outcome {
    match result {
        Ok(nine) => Outcome { word: 0, nine },
        Err(word) => Outcome {
            word,
            nine: call.cells,
        },
    }
}

/// Whether a pattern's byte agrees with a dimension, or None for a bad byte.
pub fn agrees(byte: u8, dimension: u8) -> Option<bool> {
    match byte {
        b'*' => Some(true),
        b'T' | b't' => Some(dimension != 0),
        b'F' | b'f' => Some(dimension == 0),
        b'0'..=b'2' => Some(dimension == byte - b'0' + 1),
        _ => None,
    }
}

/// Why a pattern is refused, whatever the matrix: "10, then 11", with the first bad byte's place.
pub fn pattern_refusal(pattern: &[u8]) -> Option<u32> {
    if pattern.len() != 9 {
        return Some(NOT_NINE);
    }
    let bad = |byte: &u8| agrees(*byte, 0).is_none();
    let place = pattern.iter().position(bad)?;
    Some(BAD_BYTE + place as u32)
}

/// "`matches` looks at all nine bytes before it compares": then yes exactly when every cell agrees.
pub fn matches(cells: &[u8; 9], pattern: &[u8]) -> u32 {
    if let Some(refusal) = pattern_refusal(pattern) {
        return refusal;
    }
    let mut pairs = pattern.iter().zip(read(cells));
    u32::from(pairs.all(|(byte, dimension)| agrees(*byte, dimension) == Some(true)))
}

/// The nine letters of a matrix.
pub fn text(cells: &[u8; 9]) -> [u8; 9] {
    read(cells).map(|cell| b"F012"[cell as usize])
}

/// The nine dimensions of a matrix text, or its refusal.
pub fn letters(text: &[u8]) -> Result<[u8; 9], u32> {
    let text: &[u8; 9] = text.try_into().map_err(|_| NOT_NINE)?;
    let mut cells = [0; 9];
    for (place, byte) in text.iter().enumerate() {
        cells[place] = match byte {
            b'F' => 0,
            b'0'..=b'2' => byte - b'0' + 1,
            _ => return Err(BAD_BYTE + place as u32),
        };
    }
    Ok(cells)
}

fn raised(cells: &[u8; 9], text: &[u8]) -> Result<[u8; 9], u32> {
    let least = letters(text)?;
    let given = read(cells);
    Ok(std::array::from_fn(|place| given[place].max(least[place])))
}

/// "With a none position nothing changes."
fn set(call: &Call, join: impl Fn(u8, u8) -> u8) -> Result<[u8; 9], u32> {
    if call.a > 3 || call.b > 3 {
        return Err(BAD_CODE);
    }
    let mut cells = read(&call.cells);
    if call.a != 0 && call.b != 0 {
        let place = (3 * (call.a - 1) + call.b - 1) as usize;
        cells[place] = join(cells[place], call.dimension.min(3));
    }
    Ok(cells)
}

fn transposed(cells: &[u8; 9]) -> [u8; 9] {
    let given = read(cells);
    std::array::from_fn(|place| given[place % 3 * 3 + place / 3])
}

/// Document 01's table, in its order, each row by its own words.
pub fn predicates(cells: &[u8; 9]) -> u32 {
    let any = |patterns: &[&str]| {
        patterns
            .iter()
            .any(|pattern| matches(cells, pattern.as_bytes()) == 1)
    };
    let [ii, ib, ie, bi, _, _, ei, _, _] = read(cells);
    let a = ii.max(ib).max(ie);
    let b = ii.max(bi).max(ei);
    let disjoint = any(&["FF*FF****"]);
    let answers = [
        disjoint,
        !disjoint,
        any(&["T*F**F***"]),
        any(&["T*****FF*"]),
        any(&["FFFFFFFF2", "T*F**FFF*"]),
        any(&["T*F**F***", "*TF**F***", "**FT*F***", "**F*TF***"]),
        any(&["T*****FF*", "*T****FF*", "***T**FF*", "****T*FF*"]),
        any(&["T**FF*FF*"]),
        any(&["FT*******", "F**T*****", "F***T****"]),
        a < b && any(&["T*T******"]) || a > b && any(&["T*****T**"]) || a == 2 && b == 2 && ii == 1,
        a == 2 && b == 2 && any(&["1*T***T**"])
            || (a == 1 && b == 1 || a == 3 && b == 3) && any(&["T*T***T**"]),
    ];
    answers
        .iter()
        .enumerate()
        .map(|(k, yes)| u32::from(*yes) << k)
        .sum()
}
