//! One pattern asked of many matrices, beside the cell walk.

use misonkandi::{IntersectionMatrix, Masks, Predicate, Refusal, Verdict};

const LETTERS: [u8; 8] = *b"*TtFf012";
const MATRICES: u32 = 1 << 18;

/// Patterns of every letter at every place, and some of all letters.
fn patterns() -> Vec<[u8; 9]> {
    let mut all = Vec::new();
    for place in 0..9 {
        for letter in LETTERS {
            let mut pattern = *b"*********";
            pattern[place] = letter;
            all.push(pattern);
        }
    }
    for start in 0..40 {
        all.push(std::array::from_fn(|place| {
            LETTERS[(start * 7 + place * (start % 5 + 1)) % 8]
        }));
    }
    all
}

#[test]
fn what_the_cell_walk_answers() {
    // Every 61st matrix, with bits above the eighteen set.
    let rooms: Vec<u32> = (0..MATRICES)
        .step_by(61)
        .map(|room| room | room << 18)
        .collect();
    let matrices: Vec<_> = rooms
        .iter()
        .map(|room| IntersectionMatrix::unpack(*room))
        .collect();
    for pattern in patterns() {
        let masks = Masks::from_bytes(&pattern).expect("a good pattern");
        let mut matches = vec![9; rooms.len() + 1];
        let mut verdicts = matches.clone();
        masks.match_all(&rooms, &mut matches).expect("room");
        masks.verdict_all(&rooms, &mut verdicts).expect("room");
        let mut count = 0;
        for (k, matrix) in matrices.iter().enumerate() {
            let matched = matrix.matches_bytes(&pattern).expect("a good pattern");
            let verdict = matrix.verdict_of_pattern_bytes(&pattern).expect("the same");
            assert_eq!(masks.matches(rooms[k]), matched);
            assert_eq!(masks.verdict(rooms[k]), verdict);
            assert_eq!(matches[k], u8::from(matched));
            assert_eq!(Verdict::of(verdicts[k]), Some(verdict));
            count += u64::from(matched);
        }
        assert_eq!(masks.count(&rooms), count);
        assert_eq!([matches[rooms.len()], verdicts[rooms.len()]], [9, 9]);
    }
}

#[test]
fn packed_and_unpacked() {
    for room in (0..MATRICES).step_by(7) {
        let matrix = IntersectionMatrix::unpack(room | 0xABC0_0000);
        assert_eq!(matrix.pack(), room);
    }
    let matrix: IntersectionMatrix = "212101212".parse().unwrap();
    assert_eq!(matrix.pack(), 0b11_10_11_10_01_10_11_10_11);
}

#[test]
fn eleven_verdicts_at_once() {
    for room in (0..MATRICES).step_by(13) {
        let matrix = IntersectionMatrix::unpack(room);
        let one_by_one = Predicate::ALL.map(|predicate| matrix.verdict(predicate));
        assert_eq!(matrix.verdicts(), one_by_one);
    }
}

#[test]
fn refusals() {
    for byte in (0..=255).filter(|byte| !LETTERS.contains(byte)) {
        for place in 0..9 {
            let mut pattern = *b"T*F012tf*";
            pattern[place] = byte;
            assert_eq!(Masks::from_bytes(&pattern), Err(Refusal::BadByte(place)));
        }
    }
    for count in (0..20).filter(|count| *count != 9) {
        let pattern = vec![b'*'; count];
        assert_eq!(Masks::from_bytes(&pattern), Err(Refusal::NotNineBytes));
    }
    let masks: Masks = "*********".parse().unwrap();
    assert_eq!(masks.words(), [0; 4]);
    let mut answers = [9; 3];
    let few = masks.match_all(&[0; 4], &mut answers);
    assert_eq!((few, answers), (Err(Refusal::NoRoom), [9; 3]));
    let few = masks.verdict_all(&[0; 4], &mut answers);
    assert_eq!((few, answers), (Err(Refusal::NoRoom), [9; 3]));
    assert_eq!(masks.match_all(&[], &mut []), Ok(()));
    assert_eq!(masks.count(&[]), 0);
}

#[test]
fn words_that_no_pattern_makes() {
    // Every dimension refused in every cell, and bits that nobody looks at.
    let never = Masks::from_words([!0; 4]);
    assert!(!never.matches(0));
    assert_eq!(never.verdict(0), Verdict::NoForGood);
    let unseen = Masks::from_words([!0x15555; 4]);
    assert!(unseen.matches(!0));
    assert_eq!(unseen.verdict(!0), Verdict::YesForGood);
}
