//! Which record made a cell, beside the sentence read anew: every matrix of a run is kept, and a cell's number is the first
//! of them that has its present dimension.

use misonkandi::{CoordPos, IntersectionMatrix, Predicate, Refusal, Traced, Verdict};

/// A walk over numbers: the same ones at every run.
struct Walk(u64);

impl Walk {
    fn below(&mut self, bound: u64) -> u64 {
        self.0 = self.0.wrapping_mul(6364136223846793005).wrapping_add(1);
        (self.0 >> 33) % bound
    }

    fn code(&mut self, least: u64) -> u8 {
        (least + self.below(4 - least)) as u8
    }

    /// A node without ends, an isolated line or an isolated area, some of them damaged.
    fn record(&mut self) -> Vec<u8> {
        let mut bytes = match self.below(3) {
            0 => vec![0, 7, 1, 1, self.code(1), self.code(1), 0, 0, 0],
            1 => vec![0, 9, 1, 2, 0, self.code(0), 0, 0, self.code(0), 0, 0],
            _ => {
                let codes: Vec<u8> = (0..6).map(|_| self.code(0)).collect();
                [&[0, 9, 1, 2, 1][..], &codes].concat()
            }
        };
        if self.below(8) == 0 {
            let place = self.below(bytes.len() as u64) as usize;
            bytes[place] = self.below(256) as u8;
        }
        bytes
    }

    fn cells(&mut self) -> [u8; 9] {
        match self.below(3) {
            0 => [0, 0, 0, 0, 0, 0, 0, 0, 3],
            1 => core::array::from_fn(|_| self.below(5) as u8),
            _ => core::array::from_fn(|_| [0, 3, 4, 128, 255][self.below(5) as usize]),
        }
    }
}

/// Each cell's number by the sentence. The matrices are those after 0, 1, .. records; reading them makes a number above 3
/// a 3.
fn sentence(after: &[[u8; 9]]) -> [u32; 10] {
    let read = |k: usize, cell: usize| after[k][cell].min(3);
    let last = after.len() - 1;
    core::array::from_fn(|cell| {
        let first = (0..=last).find(|&k| cell == 9 || read(k, cell) == read(last, cell));
        if cell == 9 {
            last as u32
        } else {
            first.expect("the last at least") as u32
        }
    })
}

#[test]
fn runs_beside_the_sentence() {
    let mut walk = Walk(7);
    let mut accepted = 0;
    for _ in 0..2_000 {
        let cells = walk.cells();
        let mut after = vec![cells];
        let mut traced = Traced::from_parts(cells, [0; 10]);
        for _ in 0..walk.below(40) {
            let bytes = walk.record();
            let mut matrix = IntersectionMatrix::from_cells(*after.last().expect("a start"));
            let meant = matrix.pour_record(&bytes);
            let before = traced;
            assert_eq!(traced.pour_record(&bytes), meant);
            if meant.is_ok() {
                after.push(matrix.cells());
                accepted += 1;
            } else {
                assert_eq!(traced, before);
            }
            assert_eq!(traced.cells(), *after.last().expect("a start"));
            assert_eq!(traced.numbers(), sentence(&after));
        }
    }
    assert!(accepted > 20_000);
}

#[test]
fn floors_are_one_by_one_also_near_the_last_number() {
    let mut walk = Walk(11);
    let mut spent = 0;
    for _ in 0..4_000 {
        let cells = walk.cells();
        let count = u32::MAX - walk.below(12) as u32;
        let numbers = core::array::from_fn(|k| if k == 9 { count } else { walk.below(9) as u32 });
        let bytes: Vec<u8> = (0..walk.below(16)).flat_map(|_| walk.record()).collect();
        let start = Traced::from_parts(cells, numbers);

        let mut one_by_one = start;
        let (mut used, mut records, mut refusal) = (0, 0, None);
        while used < bytes.len() && refusal.is_none() {
            let left = u32::MAX - one_by_one.records();
            let fine =
                IntersectionMatrix::from_cells(one_by_one.cells()).pour_record(&bytes[used..]);
            match one_by_one.pour_record(&bytes[used..]) {
                Ok(more) => (used, records) = (used + more, records + 1),
                Err(why) => {
                    // 15 exactly where the record is fine and no number is left
                    assert_eq!(why == Refusal::NoNumberLeft, fine.is_ok());
                    assert!(fine.is_err() || left == 0);
                    spent += u32::from(why == Refusal::NoNumberLeft);
                    refusal = Some(why);
                }
            }
        }
        let mut traced = start;
        let floor = traced.pour_floor(&bytes);
        assert_eq!(traced, one_by_one);
        assert_eq!(floor.cells(), one_by_one.cells());
        assert_eq!(
            (floor.used, floor.records, floor.refusal),
            (used as u64, records, refusal)
        );
    }
    assert!(spent > 500);
}

#[test]
fn fifteen_comes_last() {
    let numbers = [1, 2, 3, 4, 5, 6, 7, 8, 9, u32::MAX];
    let full = Traced::from_parts([4; 9], numbers);
    let good = [0, 7, 1, 1, 1, 1, 0, 0, 0];
    // a right without a left beside a left: 9, the last check of a record
    let west = [255, 255, 255, 255, 0, 0, 0, 0, 1, 2, 1, 3, 0, 0, 0];
    let east = [0, 0, 0, 1, 0, 0, 0, 0, 1, 2, 0, 3, 0, 0, 0];
    let no_left = [&[0, 37, 1, 1, 2, 1, 2, 0, 2][..], &west, &east].concat();
    for (bytes, why) in [
        (&good[..], Refusal::NoNumberLeft),
        (&no_left, Refusal::MissingLeft),
        (&[0, 2, 1, 3], Refusal::Kind),
        (&[0], Refusal::Short),
    ] {
        let mut traced = full;
        assert_eq!(traced.pour_record(bytes), Err(why));
        assert_eq!(traced, full); // larger numbers too
    }
    let mut one_left = Traced::from_parts([4; 9], [1, 2, 3, 4, 5, 6, 7, 8, 9, u32::MAX - 1]);
    assert_eq!(one_left.pour_record(&good), Ok(9));
    assert_eq!(one_left.cells(), [3; 9]); // read down, and no change
    assert_eq!(one_left.numbers(), numbers);
    assert_eq!(Refusal::NoNumberLeft.number(), 15);
    assert_eq!(Refusal::NoNumberLeft.place(), None);
}

#[test]
fn transposing_moves_the_numbers() {
    let traced = Traced::from_parts([0, 1, 2, 3, 4, 0, 1, 2, 3], [0, 1, 2, 3, 4, 5, 6, 7, 8, 9]);
    let turned = traced.transposed();
    assert_eq!(turned.cells(), [0, 3, 1, 1, 3, 2, 2, 0, 3]);
    assert_eq!(turned.numbers(), [0, 3, 6, 1, 4, 7, 2, 5, 8, 9]);
    assert_eq!(turned.transposed().numbers(), traced.numbers());
    let all = [CoordPos::Inside, CoordPos::OnBoundary, CoordPos::Outside];
    for (a, b) in all.into_iter().flat_map(|a| all.map(|b| (a, b))) {
        assert_eq!(turned.made_by(a, b), traced.made_by(b, a));
        assert_eq!(turned.matrix().get(a, b), traced.matrix().get(b, a));
    }
}

#[test]
fn the_verdict_with_few_numbers_left() {
    // from FFFFFFFFF the pattern 000000000 is open, and takes nine records
    let cells = [0; 9];
    for left in 0..12 {
        let mut traced = Traced::from_parts(
            cells,
            core::array::from_fn(|k| if k == 9 { u32::MAX - left } else { 0 }),
        );
        assert_eq!(traced.has_nine_left(), left >= 9);
        assert_eq!(
            traced.matrix().verdict_of_pattern("000000000"),
            Ok(Verdict::Open)
        );
        let nodes: Vec<u8> = (1..=3)
            .flat_map(|a| (1..=3).flat_map(move |b| [0, 7, 1, 1, a, b, 0, 0, 0]))
            .collect();
        let floor = traced.pour_floor(&nodes);
        assert_eq!(floor.records, u64::from(left.min(9)));
        let yes = traced.matrix().matches("000000000");
        assert_eq!(yes, Ok(left >= 9));
        assert_eq!(traced.has_nine_left(), left >= 18);
        // what is for good stays true whatever is left
        let verdict = traced.matrix().verdict(Predicate::Intersects);
        assert_eq!(verdict == Verdict::YesForGood, left > 0);
    }
}
