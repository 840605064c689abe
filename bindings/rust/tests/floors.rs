//! Floors: in one call, record by record, and in pieces cut anywhere, which must all say the same.

use misonkandi::{
    CoordPos, EdgeEnd, Floor, IntersectionMatrix, Label, MOST_ENDS_OF_VERSION_1, MOST_RECORD_BYTES,
    PIECES_BYTES, Pieces, Record, Refusal, Sides, floor,
};

const START: [u8; 9] = [0, 0, 0, 0, 0, 0, 0, 0, 3];
const LARGER: [u8; 9] = [250, 4, 3, 2, 1, 0, 255, 128, 9];

/// A walk over numbers: the same ones at every run.
struct Walk(u64);

impl Walk {
    fn below(&mut self, bound: usize) -> usize {
        self.0 = self.0.wrapping_mul(6364136223846793005).wrapping_add(1);
        (self.0 >> 33) as usize % bound
    }

    fn position(&mut self) -> CoordPos {
        [CoordPos::Inside, CoordPos::OnBoundary, CoordPos::Outside][self.below(3)]
    }

    /// A record of a node with up to three ends, or of an edge. Its ends are lines, so it is accepted.
    fn record(&mut self) -> Record {
        let line = |on| Sides {
            on: Some(on),
            ..Sides::default()
        };
        let label = Label {
            area: false,
            a: line(self.position()),
            b: line(self.position()),
        };
        let (dx, dy) = (1 + self.below(5) as i32, self.below(9) as i32 - 4);
        let record = match self.below(5) {
            0 => Record::edge(label),
            ends => Record::node(
                [self.position(), self.position()],
                [Some(self.position()), None],
                &vec![EdgeEnd { dx, dy, label }; ends - 1],
            ),
        };
        record.expect("a good record")
    }

    fn floor(&mut self, records: usize) -> Vec<u8> {
        (0..records).flat_map(|_| self.record().to_vec()).collect()
    }
}

/// What pouring record by record comes to, up to the first refused one.
fn one_by_one(cells: [u8; 9], bytes: &[u8]) -> (IntersectionMatrix, u64, u64, Option<Refusal>) {
    let mut matrix = IntersectionMatrix::from_cells(cells);
    let (mut used, mut records) = (0, 0);
    while used < bytes.len() {
        match matrix.pour_record(&bytes[used..]) {
            Ok(more) => used += more,
            Err(refusal) => return (matrix, used as u64, records, Some(refusal)),
        }
        records += 1;
    }
    (matrix, used as u64, records, None)
}

/// One call says what record by record does, and the cells stay as they came where nothing is accepted.
fn in_one_call(cells: [u8; 9], bytes: &[u8]) -> Floor {
    let told = floor(cells, bytes);
    let meant = one_by_one(cells, bytes);
    assert_eq!(
        (told.matrix(), told.used, told.records, told.refusal),
        meant
    );
    match told.records {
        0 => assert_eq!(told.cells(), cells),
        _ => assert_eq!(told.cells(), told.matrix().cells()),
    }
    told
}

/// Pieces that end at these places of the bytes, and the last at their end. After each, the answer is that of one call
/// to what has come.
fn in_pieces(cells: [u8; 9], bytes: &[u8], cuts: impl IntoIterator<Item = usize>) {
    let mut pieces = Pieces::from_cells(cells);
    let mut from = 0;
    for to in cuts.into_iter().chain([bytes.len()]) {
        let meant = floor(cells, &bytes[..to]);
        let more = meant.refusal.filter(|&refusal| refusal != Refusal::Short);
        assert_eq!(pieces.push(&bytes[from..to]), more.map_or(Ok(()), Err));
        assert_eq!(pieces.finish(), meant);
        from = to;
    }
}

/// A node with two area ends, an edge, a node without ends and a node with one line: 83 bytes.
fn four_records() -> Vec<u8> {
    let wall = |on, left, right| Sides { on, left, right };
    let (i, b, e) = (CoordPos::Inside, CoordPos::OnBoundary, CoordPos::Outside);
    let area = Label {
        area: true,
        a: wall(Some(b), Some(i), Some(e)),
        b: wall(Some(i), Some(i), Some(i)),
    };
    let line = Label {
        area: false,
        a: wall(Some(i), None, None),
        b: wall(Some(e), None, None),
    };
    let end = |dx, dy, label| EdgeEnd { dx, dy, label };
    let records = [
        Record::node(
            [b, i],
            [Some(b), Some(i)],
            &[end(1, 0, area), end(0, -7, area)],
        ),
        Record::edge(line),
        Record::node([e, i], [None, None], &[]),
        Record::node([i, b], [None, Some(b)], &[end(-3, 2, line)]),
    ];
    records
        .map(|record| record.expect("a good record").to_vec())
        .concat()
}

#[test]
fn every_cut_of_a_floor_and_of_a_damaged_one() {
    let good = four_records();
    assert_eq!(good.len(), 83);
    assert_eq!(in_one_call(START, &good).records, 4);
    let mut refused = 0;
    for place in 0..good.len() {
        for value in [
            0,
            1,
            2,
            3,
            4,
            33,
            255,
            good[place] ^ 128,
            good[place].wrapping_add(1),
        ] {
            let mut bytes = good.clone();
            bytes[place] = value;
            let told = in_one_call(START, &bytes);
            refused += usize::from(told.refusal.is_some());
            for cut in 0..=bytes.len() {
                in_pieces(START, &bytes, [cut]);
            }
            in_pieces(START, &bytes, 0..bytes.len()); // byte by byte
        }
    }
    assert!(refused > 200, "{refused} damaged floors are refused");
}

#[test]
fn floors_of_many_records_in_random_pieces() {
    let mut walk = Walk(1);
    for records in (0..40).chain([100, 500, 2000]) {
        let mut bytes = walk.floor(records);
        let told = in_one_call(START, &bytes);
        assert_eq!(
            (told.used, told.records),
            (bytes.len() as u64, records as u64)
        );
        for most in [3, 16, 490, 2000] {
            let most = most.max(bytes.len() / 200); // each piece is held to one call over all that has come
            let mut cuts = Vec::new();
            let mut at = walk.below(most);
            while at < bytes.len() {
                cuts.push(at);
                at += walk.below(most); // now and then a piece of no bytes
            }
            in_pieces(LARGER, &bytes, cuts.iter().copied());
            if let Some(place) = bytes.len().checked_sub(1 + walk.below(1 + bytes.len() / 2)) {
                bytes[place] ^= 1 << walk.below(8);
            }
            assert!(in_one_call(LARGER, &bytes).used <= bytes.len() as u64);
            in_pieces(START, &bytes, cuts);
        }
    }
}

/// A record of version 2 by its bytes: a node of so many lines of A, all in one direction.
fn node_of_lines(count: u16) -> Vec<u8> {
    let mut bytes = (8 + 15 * count).to_be_bytes().to_vec();
    bytes.extend([2, 1, 1, 1, 0, 0]);
    bytes.extend(count.to_be_bytes());
    for _ in 0..count {
        bytes.extend([0, 0, 0, 1, 0, 0, 0, 1, 0, 1, 0, 0, 0, 0, 0]);
    }
    bytes
}

/// The longest accepted record, and ones that are longer than any: these are refused once they have come whole, by the
/// front of them that is kept.
#[test]
fn the_longest_records_of_version_2_cut_anywhere() {
    let most = node_of_lines(600);
    assert_eq!(most.len(), MOST_RECORD_BYTES);
    let mut a_byte_more = most.clone();
    a_byte_more[..2].copy_from_slice(&u16::to_be_bytes(9009));
    a_byte_more.push(0);
    let mut other_kind = node_of_lines(700);
    other_kind[3] = 3;
    for (long, refusal) in [
        (a_byte_more, Refusal::Length),
        (node_of_lines(601), Refusal::Ends),
        (node_of_lines(4000), Refusal::Ends),
        (other_kind, Refusal::Kind),
    ] {
        let bytes = [&most[..], &long, &most].concat();
        let told = in_one_call(START, &bytes);
        assert_eq!(
            (told.used, told.records, told.refusal),
            (9010, 1, Some(refusal))
        );
        let [start, end] = [9010, 9010 + long.len()];
        let about = |place: usize| place - 4..=place + 12;
        for cut in (0..bytes.len())
            .step_by(997)
            .chain([start, end, start + 9010].into_iter().flat_map(about))
        {
            in_pieces(START, &bytes, [cut]);
            in_pieces(START, &bytes, [start + 1, cut.max(start + 1)]);
        }
        in_pieces(START, &bytes[..end + 1], (0..end + 1).step_by(7));
    }
}

/// The longest accepted record of version 1, and ones that are longer.
#[test]
fn the_longest_records_of_version_1_cut_anywhere() {
    let line = Label {
        area: false,
        a: Sides {
            on: Some(CoordPos::Inside),
            ..Sides::default()
        },
        b: Sides::default(),
    };
    let ends = [EdgeEnd {
        dx: 1,
        dy: 1,
        label: line,
    }; MOST_ENDS_OF_VERSION_1];
    let most = Record::node([CoordPos::Inside; 2], [None, None], &ends).expect("32 ends");
    assert_eq!(most.len(), 489);
    for (length, refusal) in [
        (488, Refusal::Length),
        (502, Refusal::Ends),
        (600, Refusal::Ends),
    ] {
        let mut long = most.to_vec();
        long.resize(2 + usize::from(length), 0);
        long[..2].copy_from_slice(&u16::to_be_bytes(length));
        long[8] += u8::from(refusal == Refusal::Ends);
        let bytes = [&most[..], &long, &most].concat();
        let told = in_one_call(START, &bytes);
        assert_eq!(
            (told.used, told.records, told.refusal),
            (489, 1, Some(refusal))
        );
        for cut in 0..=bytes.len() {
            in_pieces(START, &bytes, [cut]);
        }
        in_pieces(START, &bytes, 0..bytes.len());
    }
    let mut longest = vec![255; 65537];
    longest[2] = 1; // version, and no such kind
    for piece in [1000, 65535, 65536] {
        in_pieces(START, &longest, (0..65537).step_by(piece));
    }
    assert_eq!(floor(START, &longest).refusal, Some(Refusal::Kind));
    assert_eq!(
        floor(START, &longest[..65536]).refusal,
        Some(Refusal::Short)
    );
}

#[test]
fn no_bytes_are_accepted_with_the_numbers_as_they_came() {
    for cells in [START, LARGER, [0; 9]] {
        let told = in_one_call(cells, &[]);
        assert_eq!((told.used, told.records, told.refusal), (0, 0, None));
        assert_eq!(told.cells(), cells);
        let mut pieces = Pieces::from_cells(cells);
        assert_eq!(pieces.finish(), told);
        assert_eq!(pieces.push(&[]), Ok(()));
        assert_eq!(pieces.finish(), told);
    }
    // Refused at once, they stay too; an accepted record reads them down.
    assert_eq!(floor(LARGER, &[0, 2, 1, 3]).cells(), LARGER);
    assert_eq!(
        floor(LARGER, &[0, 7, 1, 1, 1, 1, 0, 0, 0]).cells(),
        [3, 3, 3, 2, 1, 0, 3, 3, 3]
    );
}

#[test]
fn a_refused_record_keeps_the_earlier_ones() {
    let (node, line) = (
        [0, 7, 1, 1, 1, 2, 0, 0, 0],
        [0, 9, 1, 2, 0, 1, 0, 0, 3, 0, 0],
    );
    let refused = [0, 9, 1, 2, 2, 1, 0, 0, 1, 0, 0];
    let bytes = [&node[..], &line, &refused, &line].concat();
    let mut matrix = IntersectionMatrix::empty_disjoint();
    let told = matrix.pour_floor(&bytes);
    assert_eq!(
        (told.used, told.records, told.refusal),
        (20, 2, Some(Refusal::LabelKind))
    );
    assert_eq!(matrix.to_string(), "F01FFFFF2");
    assert_eq!(told.matrix(), matrix);
    in_pieces(START, &bytes, [4, 25, 31, 33]);
}

#[test]
fn a_copy_goes_on_by_itself() {
    let bytes = four_records();
    let mut pieces = Pieces::new(IntersectionMatrix::empty_disjoint());
    pieces.push(&bytes[..45]).expect("a part of a record waits");
    let mut copy = pieces.clone();
    assert_eq!(copy.push(&[9; 11]), Err(Refusal::PositionCode));
    assert_eq!(pieces.push(&bytes[45..]), Ok(()));
    assert_eq!(pieces.finish(), floor(START, &bytes));
    assert_eq!(copy.finish().used, 39);
    assert_eq!(PIECES_BYTES, 9045);
}
