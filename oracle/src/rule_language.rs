//! Languages over bytes, and the first byte at which no text of one could go on.
//!
//! What may follow once a byte is read is a language too (Brzozowski's derivative): when no text is in it, none could
//! go on. Every language that can be left so is made once and numbered, so that reading a byte is looking up a number.

use Language::{Either, Empty, Many, Nothing, OneOf, Then};
use std::collections::HashMap;

/// Put together by `one_of`, `then`, `or` and `many` alone: so only Nothing is without a text.
#[derive(Clone, Debug, PartialEq, Eq, Hash)]
pub enum Language {
    Nothing,
    /// The text without bytes, and no other.
    Empty,
    OneOf(Vec<u8>),
    Then(Box<Language>, Box<Language>),
    Either(Box<Language>, Box<Language>),
    /// Any number of its texts one behind the other, none too.
    Many(Box<Language>),
}

/// The texts of one byte that is among these.
pub fn one_of(bytes: &[u8]) -> Language {
    match bytes {
        [] => Nothing,
        _ => OneOf(bytes.to_vec()),
    }
}

impl Language {
    pub fn then(self, next: Language) -> Language {
        match (self, next) {
            (Nothing, _) | (_, Nothing) => Nothing,
            (Empty, other) | (other, Empty) => other,
            (first, next) => Then(Box::new(first), Box::new(next)),
        }
    }

    pub fn or(self, other: Language) -> Language {
        match (self, other) {
            (Nothing, other) | (other, Nothing) => other,
            (one, other) if one == other => one,
            (one, other) => Either(Box::new(one), Box::new(other)),
        }
    }

    pub fn many(self) -> Language {
        match self {
            Nothing | Empty => Empty,
            other => Many(Box::new(other)),
        }
    }

    /// Whether a text may end here.
    fn has_empty(&self) -> bool {
        match self {
            Nothing | OneOf(_) => false,
            Empty | Many(_) => true,
            Then(first, next) => first.has_empty() && next.has_empty(),
            Either(one, other) => one.has_empty() || other.has_empty(),
        }
    }

    /// What may follow this byte.
    fn after(&self, byte: u8) -> Language {
        match self {
            Nothing | Empty => Nothing,
            OneOf(bytes) if bytes.contains(&byte) => Empty,
            OneOf(_) => Nothing,
            Either(one, other) => one.after(byte).or(other.after(byte)),
            Many(each) => each.after(byte).then(self.clone()),
            Then(first, next) => {
                let in_first = first.after(byte).then((**next).clone());
                match first.has_empty() {
                    true => in_first.or(next.after(byte)),
                    false => in_first,
                }
            }
        }
    }
}

/// A language that may be left: whether a text may end there, and the number of what is left after each byte.
struct Left {
    ends: bool,
    after: [Option<usize>; 256],
}

/// All that can be left of a language, itself first.
pub struct Reader(Vec<Left>);

impl Reader {
    pub fn new(language: Language) -> Self {
        let mut numbers = HashMap::from([(language.clone(), 0)]);
        let mut languages = vec![language];
        let mut all = Vec::new();
        while let Some(language) = languages.get(all.len()).cloned() {
            let mut number_after = |byte: usize| {
                let left = language.after(byte as u8);
                let next = numbers.len();
                let number = *numbers.entry(left.clone()).or_insert(next);
                if number == next {
                    languages.push(left.clone());
                }
                (left != Nothing).then_some(number)
            };
            all.push(Left {
                after: std::array::from_fn(&mut number_after),
                ends: language.has_empty(),
            });
        }
        Reader(all)
    }

    /// The place of the first byte at which no text of the language could go on, the end of the text included.
    pub fn read(&self, text: &[u8]) -> Result<(), usize> {
        let mut at = &self.0[0];
        for (place, byte) in text.iter().enumerate() {
            at = &self.0[at.after[usize::from(*byte)].ok_or(place)?];
        }
        match at.ends {
            true => Ok(()),
            false => Err(text.len()),
        }
    }
}

#[cfg(test)]
mod tests {
    use super::*;

    /// Either "ab" any number of times, or "abc".
    fn language() -> Language {
        let [a, b, c] = [b"a", b"b", b"c"].map(|byte| one_of(byte));
        let ab = a.then(b);
        ab.clone().many().or(ab.then(c))
    }

    #[test]
    fn the_first_byte_that_cannot_follow() {
        let reader = Reader::new(language());
        for good in ["", "ab", "abab", "ababab", "abc"] {
            assert_eq!(reader.read(good.as_bytes()), Ok(()), "{good}");
        }
        for (bad, place) in [
            ("b", 0),
            ("a", 1),
            ("aa", 1),
            ("aba", 3),
            ("abca", 3),
            ("ababc", 4),
        ] {
            assert_eq!(reader.read(bad.as_bytes()), Err(place), "{bad}");
        }
    }

    #[test]
    fn nothing_and_the_empty_text() {
        assert_eq!(Reader::new(one_of(b"")).read(b""), Err(0));
        assert_eq!(Reader::new(one_of(b"").many()).read(b""), Ok(()));
        assert_eq!(Reader::new(one_of(b"").many()).read(b"a"), Err(0));
        assert_eq!(one_of(b"a").then(one_of(b"")), Nothing);
        assert_eq!(one_of(b"a").or(one_of(b"")), one_of(b"a"));
    }
}
