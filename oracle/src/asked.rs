//! The crate's side: a call put to the crate's own code, and what it says.

use crate::asked_verdict;
use crate::coordinate_position::CoordPos;
use crate::dimensions::Dimensions;
use crate::ours::{Call, Op};
use crate::relate::geomgraph::intersection_matrix::IntersectionMatrix;
use crate::relate::geomgraph::intersection_matrix::dimension_matcher::DimensionMatcher;
use crate::rule;
use crate::rule_region::PATTERNS;
use std::cell::Cell;
use std::panic::{AssertUnwindSafe, catch_unwind, set_hook, take_hook};
use std::str::FromStr;

const POSITIONS: [CoordPos; 3] = [CoordPos::Inside, CoordPos::OnBoundary, CoordPos::Outside];
const DIMENSIONS: [Dimensions; 4] = [
    Dimensions::Empty,
    Dimensions::ZeroDimensional,
    Dimensions::OneDimensional,
    Dimensions::TwoDimensional,
];

/// The crate refuses without a number.
#[derive(Clone, Debug, PartialEq, Eq)]
pub enum Answer {
    Word(u32),
    Refused,
    Panicked,
}

impl Answer {
    pub fn agrees_with(&self, word: u32) -> bool {
        match self {
            Answer::Word(said) => *said == word,
            Answer::Refused => rule::refuses(word),
            Answer::Panicked => false,
        }
    }
}

/// The crate's answer, and its matrix (or text) afterwards if it leaves one.
#[derive(Clone, Debug)]
pub struct Said {
    pub answer: Answer,
    pub nine: Option<[u8; 9]>,
}

/// The crate's matrix with these cells. The crate has no number above 3, so those are read as document 01 says.
pub fn matrix(cells: &[u8; 9]) -> IntersectionMatrix {
    let mut matrix = IntersectionMatrix::empty();
    for (place, cell) in rule::read(cells).into_iter().enumerate() {
        put(&mut matrix, place, cell);
    }
    matrix
}

/// Sets one cell to a number of 0 to 3.
pub fn put(matrix: &mut IntersectionMatrix, place: usize, cell: u8) {
    let dimension = DIMENSIONS[cell as usize];
    matrix.set(POSITIONS[place / 3], POSITIONS[place % 3], dimension);
}

pub fn cells(matrix: &IntersectionMatrix) -> [u8; 9] {
    std::array::from_fn(|place| matrix.get(POSITIONS[place / 3], POSITIONS[place % 3]) as u8)
}

/// What the crate says to a call, or None if it can't be asked that.
pub fn said(call: &Call) -> Option<Said> {
    let word = |word| {
        Some(Said {
            answer: Answer::Word(word),
            nine: Some(rule::read(&call.cells)),
        })
    };
    match call.op {
        Op::Predicates => word(predicates(&matrix(&call.cells))),
        Op::Predicate if call.a < 11 => word(predicates(&matrix(&call.cells)) >> call.a & 1),
        Op::Matches => matches(call),
        Op::FromText => from_text(call),
        Op::Raise => raise(call),
        Op::ToText => to_text(call),
        Op::Set => set(call),
        Op::SetAtLeast => set_at_least(call),
        Op::Verdict => asked_verdict::predicate(call),
        Op::VerdictPattern => asked_verdict::pattern(call),
        Op::Region => region(call),
        Op::Predicate | Op::Transpose | Op::PredicateNamed | Op::RegionNamed => None,
    }
}

/// The crate's eleven predicates, in document 01's order.
#[inline]
pub fn predicates(matrix: &IntersectionMatrix) -> u32 {
    u32::from(matrix.is_disjoint())
        | u32::from(matrix.is_intersects()) << 1
        | u32::from(matrix.is_within()) << 2
        | u32::from(matrix.is_contains()) << 3
        | u32::from(matrix.is_equal_topo()) << 4
        | u32::from(matrix.is_coveredby()) << 5
        | u32::from(matrix.is_covers()) << 6
        | u32::from(matrix.is_contains_properly()) << 7
        | u32::from(matrix.is_touches()) << 8
        | u32::from(matrix.is_crosses()) << 9
        | u32::from(matrix.is_overlaps()) << 10
}

/// The same as eleven bytes, 1 or 0, each written where the caller wants it.
#[inline]
pub fn answers(matrix: &IntersectionMatrix, answers: &mut [u8; 11]) {
    answers[0] = u8::from(matrix.is_disjoint());
    answers[1] = u8::from(matrix.is_intersects());
    answers[2] = u8::from(matrix.is_within());
    answers[3] = u8::from(matrix.is_contains());
    answers[4] = u8::from(matrix.is_equal_topo());
    answers[5] = u8::from(matrix.is_coveredby());
    answers[6] = u8::from(matrix.is_covers());
    answers[7] = u8::from(matrix.is_contains_properly());
    answers[8] = u8::from(matrix.is_touches());
    answers[9] = u8::from(matrix.is_crosses());
    answers[10] = u8::from(matrix.is_overlaps());
}

/// A text is a `&str` there: bytes that aren't UTF-8 can't be asked.
fn matches(call: &Call) -> Option<Said> {
    let pattern = std::str::from_utf8(call.text()).ok()?;
    let matrix = matrix(&call.cells);
    let answer = match quietly(|| matrix.matches(pattern)) {
        Some(Ok(yes)) => Answer::Word(u32::from(yes)),
        Some(Err(_)) => Answer::Refused,
        None => Answer::Panicked,
    };
    let nine = Some(cells(&matrix));
    Some(Said { answer, nine })
}

/// The crate has no regions; it is asked for each of request R-13's patterns, and must not say yes to two of them.
fn region(call: &Call) -> Option<Said> {
    let matrix = matrix(&call.cells);
    let yes = |pattern| matches!(quietly(|| matrix.matches(pattern)), Some(Ok(true)));
    let mut rows = (0..8).filter(|row| yes(PATTERNS[*row as usize]));
    let answer = match (rows.next(), rows.next()) {
        (None, _) => Answer::Word(8),
        (Some(row), None) => Answer::Word(row),
        (Some(_), Some(_)) => Answer::Panicked,
    };
    let nine = Some(cells(&matrix));
    Some(Said { answer, nine })
}

/// The byte at which a pattern's first letter stands that isn't one of the crate's.
pub fn first_bad_letter(pattern: &str) -> Option<usize> {
    let bad = |letter: char| DimensionMatcher::try_from(letter).is_err();
    pattern.find(bad)
}

/// A refused text leaves no matrix.
fn from_text(call: &Call) -> Option<Said> {
    let text = std::str::from_utf8(call.text()).ok()?;
    let (answer, nine) = match quietly(|| IntersectionMatrix::from_str(text)) {
        Some(Ok(matrix)) => (Answer::Word(0), Some(cells(&matrix))),
        Some(Err(_)) => (Answer::Refused, None),
        None => (Answer::Panicked, None),
    };
    Some(Said { answer, nine })
}

fn raise(call: &Call) -> Option<Said> {
    let text = std::str::from_utf8(call.text()).ok()?;
    let mut matrix = matrix(&call.cells);
    let answer = match quietly(|| matrix.set_at_least_from_string(text)) {
        Some(Ok(())) => Answer::Word(0),
        Some(Err(_)) => Answer::Refused,
        None => Answer::Panicked,
    };
    let nine = Some(cells(&matrix));
    Some(Said { answer, nine })
}

/// The nine letters between the brackets of the crate's Debug text.
fn to_text(call: &Call) -> Option<Said> {
    let debug = format!("{:?}", matrix(&call.cells));
    let letters = debug
        .strip_prefix("IntersectionMatrix(")
        .and_then(|rest| rest.strip_suffix(")"))
        .and_then(|letters| letters.as_bytes().try_into().ok());
    let answer = match letters {
        Some(_) => Answer::Word(0),
        None => Answer::Refused,
    };
    Some(Said {
        answer,
        nine: letters,
    })
}

/// A position by its code; the crate has no code above 3.
fn position(code: u32) -> Option<Option<CoordPos>> {
    match code {
        0 => Some(None),
        1..=3 => Some(Some(POSITIONS[code as usize - 1])),
        _ => None,
    }
}

/// The crate's `set` takes no none.
fn set(call: &Call) -> Option<Said> {
    let (a, b) = (position(call.a)??, position(call.b)??);
    let mut matrix = matrix(&call.cells);
    matrix.set(a, b, DIMENSIONS[call.dimension.min(3) as usize]);
    Some(Said {
        answer: Answer::Word(0),
        nine: Some(cells(&matrix)),
    })
}

/// With a none it is `set_at_least_if_in_both`; without, that and `set_at_least` must say the same.
fn set_at_least(call: &Call) -> Option<Said> {
    let (a, b) = (position(call.a)?, position(call.b)?);
    let dimension = DIMENSIONS[call.dimension.min(3) as usize];
    let mut both = matrix(&call.cells);
    both.set_at_least_if_in_both(a, b, dimension);
    if let (Some(a), Some(b)) = (a, b) {
        let mut plain = matrix(&call.cells);
        plain.set_at_least(a, b, dimension);
        assert_eq!(plain, both, "the crate's two ways to raise a cell differ");
    }
    Some(Said {
        answer: Answer::Word(0),
        nine: Some(cells(&both)),
    })
}

thread_local! {
    /// Whether the crate is being asked, so that a panic is an answer and no message is due.
    static ASKING: Cell<bool> = const { Cell::new(false) };
}

/// Keeps the messages of panics inside the crate from the report. Panics of the oracle itself are still told.
pub fn hush_the_crate() {
    let told = take_hook();
    set_hook(Box::new(move |info| {
        if !ASKING.get() {
            told(info);
        }
    }));
}

/// The crate's answer, or None if it panicked.
pub fn quietly<T>(ask: impl FnOnce() -> T) -> Option<T> {
    ASKING.set(true);
    let answer = catch_unwind(AssertUnwindSafe(ask));
    ASKING.set(false);
    answer.ok()
}
