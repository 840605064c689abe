//! Pieces that inputs are made of: matrices by number, letters that agree or don't, characters of several bytes.

use crate::random::Random;

/// How many matrices there are: four dimensions in nine cells.
pub const MATRICES: usize = 1 << 18;

pub const TEXT_LETTERS: [u8; 4] = *b"F012";
pub const PATTERN_LETTERS: [u8; 8] = *b"*TtFf012";

/// Two, three and four bytes long; some look like a good letter or are a digit elsewhere.
pub const SEVERAL_BYTES: [char; 10] = [
    '\u{80}',
    'é',
    '\u{660}',
    '\u{7FF}',
    '\u{800}',
    '€',
    'Ｆ',
    '０',
    '😀',
    '\u{10FFFF}',
];

/// The matrix with this number, the last cell counting fastest.
pub fn matrix_by_number(number: usize) -> [u8; 9] {
    std::array::from_fn(|place| (number >> (2 * (8 - place)) & 3) as u8)
}

pub fn number_of_matrix(cells: &[u8; 9]) -> usize {
    cells
        .iter()
        .fold(0, |number, cell| 4 * number + usize::from(*cell))
}

/// A pattern letter that agrees with a cell of 0 to 3.
pub fn agreeing(random: &mut Random, cell: u8) -> u8 {
    match cell {
        0 => random.pick(b"*Ff"),
        1 => random.pick(b"*Tt0"),
        2 => random.pick(b"*Tt1"),
        _ => random.pick(b"*Tt2"),
    }
}

/// A pattern letter that doesn't.
pub fn disagreeing(random: &mut Random, cell: u8) -> u8 {
    match cell {
        0 => random.pick(b"Tt012"),
        1 => random.pick(b"Ff12"),
        2 => random.pick(b"Ff02"),
        _ => random.pick(b"Ff01"),
    }
}

/// A pattern letter that a cell can still come to agree with: one that stays agreed, or one that is open.
pub fn in_reach(random: &mut Random, cell: u8) -> u8 {
    match cell {
        0 => random.pick(b"**TtFf012"),
        1 => random.pick(b"**TtTt012"),
        2 => random.pick(b"**TtTt12"),
        _ => random.pick(b"**TtTt2"),
    }
}

/// A pattern letter that a cell will agree with for good.
pub fn settled(random: &mut Random, cell: u8) -> u8 {
    match cell {
        0 => b'*',
        1 | 2 => random.pick(b"*Tt"),
        _ => random.pick(b"*Tt2"),
    }
}

/// A pattern letter that a cell can't come to agree with any more. There is none for F.
pub fn out_of_reach(random: &mut Random, cell: u8) -> u8 {
    match cell {
        1 => random.pick(b"Ff"),
        2 => random.pick(b"Ff0"),
        _ => random.pick(b"Ff01"),
    }
}

/// A pattern whose nine letters agree with the matrix.
pub fn agreeing_pattern(random: &mut Random, cells: &[u8; 9]) -> [u8; 9] {
    cells.map(|cell| agreeing(random, cell))
}

pub fn good_pattern(random: &mut Random) -> [u8; 9] {
    std::array::from_fn(|_| random.pick(&PATTERN_LETTERS))
}

pub fn good_text(random: &mut Random) -> [u8; 9] {
    std::array::from_fn(|_| random.pick(&TEXT_LETTERS))
}

/// A byte that no pattern may have; three in four are below 128, so that the crate can be asked.
pub fn bad_byte(random: &mut Random) -> u8 {
    let mask = if random.below(4) == 0 { 255 } else { 127 };
    loop {
        let byte = random.byte() & mask;
        if !PATTERN_LETTERS.contains(&byte) {
            return byte;
        }
    }
}

/// The text with the bytes from `place` on taken by a character of several bytes, if it fits.
pub fn with_character(text: &[u8; 9], place: usize, character: char) -> Option<[u8; 9]> {
    let mut room = [0; 4];
    let bytes = character.encode_utf8(&mut room).as_bytes();
    let mut text = *text;
    text.get_mut(place..place + bytes.len())?
        .copy_from_slice(bytes);
    Some(text)
}

/// Bytes of a wrong count: some of good letters, some of anything, some with characters of several bytes.
pub fn of_wrong_count(random: &mut Random, letters: &[u8], count: usize) -> Vec<u8> {
    match random.below(4) {
        0 => (0..count).map(|_| random.byte()).collect(),
        1 => several_and_letters(random, letters, count),
        _ => (0..count).map(|_| random.pick(letters)).collect(),
    }
}

/// Good letters and characters of several bytes, UTF-8 as a whole, of exactly this count of bytes.
fn several_and_letters(random: &mut Random, letters: &[u8], count: usize) -> Vec<u8> {
    let mut text = String::new();
    while text.len() < count {
        let character = random.pick(&SEVERAL_BYTES);
        if random.below(3) == 0 && text.len() + character.len_utf8() <= count {
            text.push(character);
        } else {
            text.push(random.pick(letters) as char);
        }
    }
    text.into_bytes()
}
