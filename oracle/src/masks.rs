//! Patterns as masks, request R-4: every matrix with many patterns, beside the crate, the cell walk of our library and
//! document 01's own rules; refused patterns; masks that no pattern makes; batches; all eleven verdicts in one call.
//!
//! A batch of all matrices is one call, so this asks the library in this process: the archive must be for this
//! processor (README.md).

#[cfg(not(linked))]
pub fn main() -> i32 {
    eprintln!("the library isn't built for this processor: run tools/library.sh first");
    2
}

#[cfg(linked)]
pub use asking::main;

#[cfg(linked)]
mod asking {
    use crate::asked;
    use crate::ours::linked;
    use crate::pieces::{
        MATRICES, PATTERN_LETTERS, bad_byte, good_pattern, matrix_by_number, of_wrong_count,
    };
    use crate::random::Random;
    use crate::relate::geomgraph::intersection_matrix::IntersectionMatrix;
    use crate::rule;
    use crate::rule_verdict;

    const SEED: u64 = 4_040_404;
    const PATTERNS: usize = 1_200;
    const NO_ROOM: u32 = rule::refusal(12);
    const UNTOUCHED: u8 = 0xA5;

    struct Counts {
        asked: u64,
        wrong: u64,
    }

    impl Counts {
        fn same<T: PartialEq + std::fmt::Debug>(
            &mut self,
            what: impl Fn() -> String,
            told: T,
            meant: T,
        ) {
            self.asked += 1;
            if told != meant {
                self.wrong += 1;
                if self.wrong < 20 {
                    println!("{}: {told:?}, and not {meant:?}", what());
                }
            }
        }
    }

    /// Every matrix: its cells, its number and the crate's form of it.
    struct Every {
        cells: Vec<[u8; 9]>,
        rooms: Vec<u32>,
        crates: Vec<IntersectionMatrix>,
    }

    impl Every {
        fn new() -> Self {
            let cells: Vec<[u8; 9]> = (0..MATRICES).map(matrix_by_number).collect();
            Every {
                rooms: (0..MATRICES as u32).collect(),
                crates: cells.iter().map(asked::matrix).collect(),
                cells,
            }
        }
    }

    fn packing(every: &Every, random: &mut Random, counts: &mut Counts) {
        for (room, cells) in every.rooms.iter().zip(&every.cells) {
            counts.same(|| format!("pack {cells:?}"), linked::pack(cells), *room);
            let above = cells.map(|cell| {
                if cell == 3 {
                    3 + random.below(253) as u8
                } else {
                    cell
                }
            });
            counts.same(|| format!("pack {above:?}"), linked::pack(&above), *room);
            let mut back = [UNTOUCHED; 9];
            let high = (random.next() as u32) << 18;
            linked::unpack(room | high, &mut back);
            counts.same(|| format!("unpack {room:x}"), back, *cells);
        }
    }

    fn eleven_verdicts(every: &Every, counts: &mut Counts) {
        for cells in &every.cells {
            let mut told = [UNTOUCHED; 11];
            linked::verdicts(cells, &mut told);
            for (row, told) in told.into_iter().enumerate() {
                let meant = rule_verdict::predicate(cells, row as u32);
                let what = || format!("verdict {row} of {cells:?}");
                counts.same(what, u32::from(told), meant);
                counts.same(what, linked::verdict(cells, row as u32), meant);
            }
        }
    }

    /// Every letter at every place, the rest anything; then random ones of all letters.
    fn patterns(random: &mut Random) -> Vec<[u8; 9]> {
        let mut all = Vec::new();
        for place in 0..9 {
            for letter in PATTERN_LETTERS {
                let mut pattern = *b"*********";
                pattern[place] = letter;
                all.push(pattern);
                let mut pattern = good_pattern(random);
                pattern[place] = letter;
                all.push(pattern);
            }
        }
        while all.len() < PATTERNS {
            let mut pattern = good_pattern(random);
            // Half of them with more letters that most cells agree with, so that more answers are yes.
            if random.below(2) == 0 {
                for letter in &mut pattern {
                    if random.below(3) > 0 {
                        *letter = random.pick(b"**T");
                    }
                }
            }
            all.push(pattern);
        }
        all
    }

    fn every_matrix(every: &Every, random: &mut Random, counts: &mut Counts) -> u64 {
        let mut yes = 0;
        let mut answers = vec![UNTOUCHED; MATRICES + 3];
        let mut verdicts = answers.clone();
        let mut high = every.rooms.clone();
        for pattern in patterns(random) {
            let text = str::from_utf8(&pattern).expect("letters are ASCII");
            let mut masks = [0; 4];
            let made = linked::masks(&pattern, &mut masks);
            counts.same(|| format!("masks of {text}"), made, 0);
            for room in &mut high {
                *room = *room & 0x3FFFF | (random.next() as u32) << 18;
            }
            let word = linked::masks_match_all(&masks, &every.rooms, &mut answers);
            counts.same(|| format!("match_all of {text}"), word, 0);
            let word = linked::masks_verdict_all(&masks, &high, &mut verdicts);
            counts.same(|| format!("verdict_all of {text}"), word, 0);
            let mut here = 0;
            for (k, cells) in every.cells.iter().enumerate() {
                let what = || format!("{text} on {cells:?}");
                let meant = rule::matches(cells, &pattern);
                let crates = every.crates[k].matches(text).expect("a good pattern");
                counts.same(what, u32::from(crates), meant);
                counts.same(what, u32::from(answers[k]), meant);
                counts.same(what, linked::masks_match(&masks, high[k]), meant);
                counts.same(what, linked::matches(cells, &pattern), meant);
                let judged = rule_verdict::pattern(cells, &pattern);
                counts.same(what, u32::from(verdicts[k]), judged);
                counts.same(what, linked::masks_verdict(&masks, every.rooms[k]), judged);
                counts.same(what, linked::verdict_pattern(cells, &pattern), judged);
                here += u64::from(meant);
            }
            counts.same(
                || format!("count of {text}"),
                linked::masks_count(&masks, &high),
                here,
            );
            for beyond in [&answers[MATRICES..], &verdicts[MATRICES..]] {
                counts.same(|| "beyond".into(), beyond, &[UNTOUCHED; 3][..]);
            }
            yes += here;
        }
        yes
    }

    fn refused(random: &mut Random, counts: &mut Counts) {
        let mut ask = |pattern: &[u8]| {
            let mut masks = [7, 8, 9, 10];
            let meant = rule::pattern_refusal(pattern).expect("a bad pattern");
            let what = || format!("masks of {pattern:?}");
            counts.same(what, linked::masks(pattern, &mut masks), meant);
            counts.same(what, masks, [7, 8, 9, 10]);
            counts.same(what, linked::verdict_pattern(&[0; 9], pattern), meant);
        };
        for place in 0..9 {
            for byte in (0..=255).filter(|byte| !PATTERN_LETTERS.contains(byte)) {
                for _ in 0..20 {
                    let mut pattern = good_pattern(random);
                    pattern[place] = byte;
                    ask(&pattern);
                    for later in place + 1..9 {
                        if random.below(3) == 0 {
                            pattern[later] = bad_byte(random);
                        }
                    }
                    ask(&pattern);
                }
            }
        }
        for count in (0..40).filter(|count| *count != 9) {
            for _ in 0..200 {
                let pattern = of_wrong_count(random, &PATTERN_LETTERS, count);
                ask(&pattern);
            }
        }
    }

    /// What four words refuse, bit by bit.
    fn by_bits(masks: &[u32; 4], room: u32) -> (u32, u32) {
        let refuses = |cell: u32, number: u32| masks[number as usize] >> (16 - 2 * cell) & 1 == 1;
        let number = |cell: u32| room >> (16 - 2 * cell) & 3;
        let matches = (0..9).all(|cell| !refuses(cell, number(cell)));
        let hope = (0..9).all(|cell| (number(cell)..4).any(|n| !refuses(cell, n)));
        let firm = (0..9).all(|cell| (number(cell)..4).all(|n| !refuses(cell, n)));
        let verdict = match (hope, firm) {
            (false, _) => rule_verdict::NO_FOR_GOOD,
            (true, true) => rule_verdict::YES_FOR_GOOD,
            (true, false) => rule_verdict::OPEN,
        };
        (u32::from(matches), verdict)
    }

    fn any_words(random: &mut Random, counts: &mut Counts) {
        for turn in 0..2_000_000 {
            // Fewer and fewer bits, so that every answer is met.
            let masks = [(); 4].map(|()| {
                (0..turn % 6).fold(random.next() as u32, |word, _| word & random.next() as u32)
            });
            let room = random.next() as u32;
            let (matches, verdict) = by_bits(&masks, room);
            let what = || format!("{masks:x?} on {room:x}");
            counts.same(what, linked::masks_match(&masks, room), matches);
            counts.same(what, linked::masks_verdict(&masks, room), verdict);
        }
    }

    type All = fn(&[u32; 4], &[u32], &mut [u8]) -> u32;
    type One = fn(&[u32; 4], u32) -> u32;

    fn batches(random: &mut Random, counts: &mut Counts) {
        let calls: [(All, One); 2] = [
            (linked::masks_match_all, |masks, room| {
                linked::masks_match(masks, room)
            }),
            (linked::masks_verdict_all, |masks, room| {
                linked::masks_verdict(masks, room)
            }),
        ];
        for size in 0..200 {
            let rooms: Vec<u32> = (0..size).map(|_| random.next() as u32).collect();
            for place in 0..size + 5 {
                let masks =
                    [(); 4].map(|()| (random.next() & random.next() & random.next()) as u32);
                for (all, one) in calls {
                    let mut answers = vec![UNTOUCHED; place];
                    let word = all(&masks, &rooms, &mut answers);
                    let few = place < size;
                    let meant: Vec<u8> = (0..place)
                        .map(|k| match few || k >= size {
                            true => UNTOUCHED,
                            false => one(&masks, rooms[k]) as u8,
                        })
                        .collect();
                    let what = || format!("{size} rooms, {place} answers");
                    counts.same(what, word, if few { NO_ROOM } else { 0 });
                    counts.same(what, answers, meant);
                }
                let count = rooms
                    .iter()
                    .filter(|room| linked::masks_match(&masks, **room) == 1);
                let meant = count.count() as u64;
                let what = || format!("count of {size} rooms");
                counts.same(what, linked::masks_count(&masks, &rooms), meant);
            }
        }
    }

    pub fn main() -> i32 {
        let random = &mut Random::new(SEED);
        let counts = &mut Counts { asked: 0, wrong: 0 };
        let every = Every::new();
        packing(&every, random, counts);
        eleven_verdicts(&every, counts);
        refused(random, counts);
        any_words(random, counts);
        batches(random, counts);
        println!(
            "packing, eleven verdicts, refusals, any words, batches: {} comparisons",
            counts.asked
        );
        let yes = every_matrix(&every, random, counts);
        println!("{PATTERNS} patterns on {MATRICES} matrices: {yes} of them match");
        println!("{} comparisons, {} wrong", counts.asked, counts.wrong);
        i32::from(counts.wrong > 0)
    }
}
