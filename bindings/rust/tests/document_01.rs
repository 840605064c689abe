//! Document 01's examples P1 to P14 and its edges, through the safe wrappers; P5 as request R-5 has it.

use misonkandi::{
    CoordPos, Dimensions, EdgeEnd, IntersectionMatrix, Label, Place, Predicate, REPORT_BYTES,
    Record, Refusal, Sides, bundle, bundle_of_bytes, relate_coded, star, star_of_bytes, write_star,
};

const I: Option<CoordPos> = Some(CoordPos::Inside);
const B: Option<CoordPos> = Some(CoordPos::OnBoundary);
const E: Option<CoordPos> = Some(CoordPos::Outside);
const START: IntersectionMatrix = IntersectionMatrix::empty_disjoint();

fn matrix(letters: &str) -> IntersectionMatrix {
    letters.parse().expect("nine letters")
}

fn letters(answer: Result<IntersectionMatrix, Refusal>) -> String {
    answer.expect("two places").to_string()
}

fn sides(on: Option<CoordPos>, left: Option<CoordPos>, right: Option<CoordPos>) -> Sides {
    Sides { on, left, right }
}

fn area_end(dx: i32, dy: i32, a: Sides, b: Sides) -> EdgeEnd {
    let label = Label { area: true, a, b };
    EdgeEnd { dx, dy, label }
}

fn line_end(dx: i32, dy: i32, on: Option<CoordPos>) -> EdgeEnd {
    let both = sides(on, None, None);
    let label = Label {
        area: false,
        a: both,
        b: both,
    };
    EdgeEnd { dx, dy, label }
}

/// The record of a node that lies as given against both geometries and both areas.
fn node(all: CoordPos, ends: &[EdgeEnd]) -> Result<Record, Refusal> {
    Record::node([all; 2], [Some(all); 2], ends)
}

/// P1's record.
fn p1() -> Record {
    node(CoordPos::OnBoundary, &four_ends()).expect("a good record")
}

/// P1's four ends: A's outline runs north and south, B's east and west.
fn four_ends() -> [EdgeEnd; 4] {
    let none = Sides::default();
    [
        area_end(2, 0, none, sides(B, I, E)),
        area_end(0, 2, sides(B, I, E), none),
        area_end(-2, 0, none, sides(B, E, I)),
        area_end(0, -2, sides(B, E, I), none),
    ]
}

#[test]
fn p1_and_p2_a_record_and_overlaps() {
    let record = p1();
    let mut poured = START;
    assert_eq!(poured.pour_record(&record), Ok(2 + 7 + 15 * 4));
    assert_eq!(poured.to_string(), "212101212");
    assert!(poured.is_overlaps());
    let yes = Predicate::ALL.map(|predicate| poured.ask(predicate));
    assert_eq!(
        yes,
        [
            false, true, false, false, false, false, false, false, false, false, true
        ]
    );

    // Bytes after it don't matter; one byte too few is refusal 1, and nothing is poured.
    let mut again = START;
    assert_eq!(again.pour_record(&[&record[..], &[9; 40]].concat()), Ok(69));
    assert_eq!(again, poured);
    let mut kept = START;
    assert_eq!(kept.pour_record(&record[..68]), Err(Refusal::Short));
    assert_eq!(kept, START);
}

#[test]
fn p3_and_p4_equal_topo() {
    assert!(START.is_equal_topo());
    assert!(!IntersectionMatrix::empty().is_equal_topo());
}

#[test]
fn p5_and_p6_a_bad_byte_is_always_refused() {
    for matrix in [START, matrix("212101212")] {
        let refusal = matrix.matches("T*X******").expect_err("a bad byte");
        assert_eq!(refusal, Refusal::BadByte(2));
        assert_eq!((refusal.number(), refusal.place()), (11, Some(2)));
        assert_eq!(refusal.to_string(), "refused 11 at 2: bad byte");
    }
}

/// Every bad byte at every place of FFFFFFFF2. With `*` all other cells agree; with `T` the first eight don't; with `F` only
/// the last doesn't.
#[test]
fn a_bad_byte_is_refused_whatever_the_other_cells_say() {
    let good = b"*TtFf012";
    for place in 0..9 {
        for byte in (0..=255).filter(|byte| !good.contains(byte)) {
            for other in *b"*TF" {
                let mut pattern = [other; 9];
                pattern[place] = byte;
                let refused = Err(Refusal::BadByte(place));
                assert_eq!(START.matches_bytes(&pattern), refused);
            }
        }
    }
}

/// Of several bad bytes the first is told, and the count of bytes is looked at before them.
#[test]
fn the_first_bad_byte_and_the_count() {
    assert_eq!(START.matches("TTTTXTTTY"), Err(Refusal::BadByte(4)));
    assert_eq!(START.matches("XXXXXXXX"), Err(Refusal::NotNineBytes));
    assert_eq!(START.matches("TTTTTTTTTX"), Err(Refusal::NotNineBytes));
}

#[test]
fn p7_and_p8_the_verdict_of_a_pattern() {
    use misonkandi::Verdict;
    assert_eq!(
        START.verdict_of_pattern("T*X******"),
        Err(Refusal::BadByte(2))
    );
    assert_eq!(START.verdict_of_pattern("FF*FF****"), Ok(Verdict::Open));
    assert_eq!(
        matrix("0FFFFFFF2").verdict_of_pattern("FF*FF****"),
        Ok(Verdict::NoForGood)
    );
    assert_eq!(
        START.verdict_of_pattern("********2"),
        Ok(Verdict::YesForGood)
    );
    assert_eq!(
        START.verdict_of_pattern("FF*FF***"),
        Err(Refusal::NotNineBytes)
    );
    assert_eq!(
        START.verdict_of_pattern_bytes(&[0xff; 9]),
        Err(Refusal::BadByte(0))
    );
}

#[test]
fn p9_crosses() {
    assert!(matrix("0F1FF0102").is_crosses());
}

#[test]
fn p10_to_p13_boxes() {
    let relate = |a: [f64; 4], b: [f64; 4]| letters(relate_coded(1, a, 1, b));
    assert_eq!(relate([0., 0., 4., 4.], [2., 2., 6., 6.]), "212101212");
    assert_eq!(relate([0., 0., 4., 4.], [0., 0., 4., 4.]), "2FFF1FFF2");
    assert_eq!(relate([0., 0., 2., 2.], [2., 2., 4., 4.]), "FF2F01212");
    assert_eq!(relate([0., 0., 6., 6.], [2., 2., 4., 4.]), "212FF1FF2");
    let (a, b) = (Place::rect(0., 0., 4., 4.), Place::rect(2., 2., 6., 6.));
    assert_eq!(letters(a.relate(&b)), "212101212");
}

#[test]
fn p14_two_boundary_ends_and_three() {
    let ends = [line_end(1, 0, B); 3];
    assert_eq!(bundle(&ends[..2]).map(|label| label.a.on), Ok(I));
    assert_eq!(bundle(&ends).map(|label| label.a.on), Ok(B));
}

#[test]
fn points_and_what_is_no_place() {
    let room = Place::rect(0., 0., 4., 4.);
    assert_eq!(letters(Place::point(1., 1.).relate(&room)), "0FFFFF212");
    assert_eq!(letters(Place::point(0., 1.).relate(&room)), "F0FFFF212");
    assert_eq!(letters(Place::point(9., 1.).relate(&room)), "FF0FFF212");
    assert_eq!(letters(room.relate(&Place::point(9., 1.))), "FF2FF10F2");
    assert_eq!(
        letters(Place::point(0., 1.).relate(&Place::point(-0., 1.))),
        "0FFFFFFF2"
    );
    assert_eq!(
        letters(Place::point(0., 1.).relate(&Place::point(0., 2.))),
        "FF0FFF0F2"
    );
    for bad in [
        Place::point(f64::NAN, 0.),
        Place::point(0., f64::INFINITY),
        Place::rect(0., 0., 0., 1.),
        Place::rect(0., 1., 1., 0.),
    ] {
        assert_eq!(bad.relate(&room), Err(Refusal::NotAPlace));
        assert_eq!(room.relate(&bad), Err(Refusal::NotAPlace));
    }
    assert_eq!(
        relate_coded(2, [0.; 4], 0, [0.; 4]),
        Err(Refusal::NotAPlace)
    );
}

#[test]
fn thirty_two_ends_pass_in_version_1_and_thirty_three_are_5() {
    let ends = [line_end(1, 0, I); 33];
    for count in [0, 32] {
        let record = node(CoordPos::Inside, &ends[..count]).expect("a good record");
        let mut poured = START;
        assert_eq!(poured.pour_record(&record), Ok(9 + 15 * count));
    }
    let mut longer = node(CoordPos::Inside, &ends[..32])
        .expect("a good record")
        .to_vec();
    longer.extend(ends[0].bytes());
    longer[..2].copy_from_slice(&(7u16 + 15 * 33).to_be_bytes());
    longer[8] = 33;
    let mut kept = START;
    assert_eq!(kept.pour_record(&longer), Err(Refusal::Ends));
}

/// Request R-11: a node in version 2, and the calls on ends.
#[test]
fn six_hundred_ends_pass_and_six_hundred_one_are_5() {
    let ends = [line_end(1, 0, I); 601];
    for count in [33, 600] {
        let record = node(CoordPos::Inside, &ends[..count]).expect("a good record");
        let mut poured = START;
        assert_eq!(poured.pour_record(&record), Ok(10 + 15 * count));
    }
    assert_eq!(node(CoordPos::Inside, &ends), Err(Refusal::Ends));
    assert_eq!(bundle(&ends), Err(Refusal::Ends));
    assert_eq!(star(&ends, None, None), Err(Refusal::Ends));
    for count in [32, 33, 600] {
        assert_eq!(bundle(&ends[..count]).map(|label| label.b.on), Ok(I));
        let labels = star(&ends[..count], None, None);
        assert_eq!(labels.map(|labels| labels.len()), Ok(1));
    }
    assert_eq!(star(&[], None, None), Ok(vec![]));
}

/// As many directions as ends, from the north to the east: the labels come the other way round, and fit exactly.
#[test]
fn the_labels_of_a_star_in_the_room_that_is_lent() {
    for count in [1, 32, 33, 600] {
        let end = |at: usize| line_end(1 + at as i32, 600 - at as i32, [I, B, E][at % 3]);
        let ends: Vec<_> = (0..count).map(end).collect();
        let bytes = ends.iter().flat_map(|end| end.bytes()).collect::<Vec<_>>();
        let labels = ends.iter().rev().flat_map(|end| end.label.bytes());
        let labels = labels.collect::<Vec<_>>();
        let listed = star(&ends, I, I).expect("a star");
        assert!(listed.iter().eq(ends.iter().rev().map(|end| &end.label)));

        let mut room = vec![9; 7 * count + 5];
        assert_eq!(write_star(&bytes, 1, 1, &mut room), Ok(count));
        assert_eq!(room, [&labels[..], &[9; 5]].concat());
        let mut exact = vec![9; 7 * count];
        assert_eq!(write_star(&bytes, 1, 1, &mut exact), Ok(count));
        assert_eq!(exact, labels);
        let mut short = vec![9; 7 * count - 1];
        let kept = short.clone();
        assert_eq!(write_star(&bytes, 1, 1, &mut short), Err(Refusal::NoRoom));
        assert_eq!(short, kept);
    }
    assert_eq!(write_star(&[], 0, 0, &mut []), Ok(0));
    // Room is looked for last: of a bad end, and of a right without a left, nothing is told but that.
    let bad = line_end(0, 0, I).bytes();
    assert_eq!(write_star(&bad, 0, 0, &mut []), Err(Refusal::Direction));
    assert_eq!(write_star(&bad, 0, 4, &mut []), Err(Refusal::PositionCode));
    let left = area_end(1, 0, sides(B, I, E), Sides::default()).bytes();
    let no_left = area_end(0, 1, sides(B, None, E), Sides::default()).bytes();
    let both = [left, no_left].concat();
    assert_eq!(write_star(&both, 0, 0, &mut []), Err(Refusal::MissingLeft));
}

#[test]
fn records_are_refused_in_document_01s_order() {
    let good = p1();
    let with = |place: usize, byte: u8| {
        let mut bytes = good.to_vec();
        bytes[place] = byte;
        let mut kept = START;
        let answer = kept.pour_record(&bytes).expect_err("a damaged record");
        assert_eq!(kept, START);
        answer.number()
    };
    assert_eq!(with(0, 1), 1); // length 323
    assert_eq!(with(1, 1), 4); // length below 2
    assert_eq!(with(2, 3), 2);
    assert_eq!(with(2, 2), 5); // version 2, of 1,024 ends by its two bytes
    assert_eq!(with(3, 3), 3);
    assert_eq!(with(1, 66), 4); // not 7 + 15n
    assert_eq!(with(8, 33), 5);
    assert_eq!(with(4, 0), 6); // a node position of none
    assert_eq!(with(6, 4), 6);
    assert_eq!(with(12, 0), 8); // the first end's direction becomes 0,0
    assert_eq!(with(17, 2), 7);
    assert_eq!(with(18, 4), 6);
    assert_eq!(with(17, 0), 7); // a line label with sides
    assert_eq!(with(22, 0), 9); // a right without a left
    assert_eq!(
        IntersectionMatrix::empty().pour_record(&[]),
        Err(Refusal::Short)
    );
}

#[test]
fn an_isolated_edge_is_poured_as_it_is() {
    let label = Label {
        area: true,
        a: sides(B, I, E),
        b: sides(E, E, E),
    };
    let record = Record::edge(label).expect("a good record");
    let mut poured = START;
    assert_eq!(poured.pour_record(&record), Ok(11));
    assert_eq!(poured.to_string(), "FF2FF1FF2");
}

#[test]
fn reports_and_their_room() {
    let stored = matrix("212101212");
    assert_eq!(&stored.report(), b"\x00\x0a\x01212101212");
    let mut buffer = [7; REPORT_BYTES];
    assert_eq!(stored.write_report(&mut buffer, 0), Ok(12));
    assert_eq!(buffer, stored.report());
    for offset in [1, 12, 13, usize::MAX] {
        let mut kept = [7; REPORT_BYTES];
        assert_eq!(stored.write_report(&mut kept, offset), Err(Refusal::NoRoom));
        assert_eq!(kept, [7; REPORT_BYTES]);
    }
    let mut long = [7; 20];
    assert_eq!(stored.write_report(&mut long, 5), Ok(12));
    assert_eq!((&long[..5], &long[17..]), (&[7; 5][..], &[7; 3][..]));
    assert_eq!(
        IntersectionMatrix::read_report(&long[5..]),
        Ok((stored, 12))
    );
    assert_eq!(
        IntersectionMatrix::read_report(&long[5..16]),
        Err(Refusal::Short)
    );
    assert_eq!(
        IntersectionMatrix::read_report(b"\x00\x0b\x01212101212F"),
        Err(Refusal::Length)
    );
    assert_eq!(
        IntersectionMatrix::read_report(b"\x00\x0a\x03212101212"),
        Err(Refusal::Version)
    );
    assert_eq!(
        IntersectionMatrix::read_report(b"\x00\x0a\x0121210121t"),
        Err(Refusal::BadByte(8))
    );
}

#[test]
fn texts_and_raising() {
    assert_eq!(
        "212101212".parse::<IntersectionMatrix>().map(|m| m.cells()),
        Ok([3, 2, 3, 2, 1, 2, 3, 2, 3])
    );
    assert_eq!(
        "21210121".parse::<IntersectionMatrix>(),
        Err(Refusal::NotNineBytes)
    );
    assert_eq!(
        "f12101212".parse::<IntersectionMatrix>(),
        Err(Refusal::BadByte(0))
    );
    assert_eq!(
        IntersectionMatrix::from_bytes(&[0x80; 9]),
        Err(Refusal::BadByte(0))
    );
    assert_eq!(
        format!("{:?}", matrix("1020F1102")),
        "IntersectionMatrix(1020F1102)"
    );
    assert_eq!(format!("{:>12}", matrix("1020F1102")), "   1020F1102");
    let mut raised = matrix("0F1FFFFF2");
    assert_eq!(raised.set_at_least_from_string("1F0FFFFF0"), Ok(()));
    assert_eq!(raised, matrix("1F1FFFFF2"));
    // Where geo keeps the cells before the bad letter, nothing changes here.
    assert_eq!(
        raised.set_at_least_from_string("2222X2222"),
        Err(Refusal::BadByte(4))
    );
    assert_eq!(raised, matrix("1F1FFFFF2"));
}

#[test]
fn ends_as_bytes_are_checked_as_in_a_record() {
    let end = line_end(1, 0, I).bytes();
    assert_eq!(bundle_of_bytes(&end[..14]), Err(Refusal::Length));
    assert_eq!(star_of_bytes(&end[..14], 4, 0), Err(Refusal::Length));
    assert_eq!(star_of_bytes(&end.repeat(601), 0, 4), Err(Refusal::Ends));
    assert_eq!(bundle_of_bytes(&end.repeat(601)), Err(Refusal::Ends));
    assert_eq!(star_of_bytes(&[], 0, 4), Err(Refusal::PositionCode));
    assert_eq!(star_of_bytes(&[0; 15], 0, 4), Err(Refusal::PositionCode));
    assert_eq!(star_of_bytes(&[0; 15], 0, 0), Err(Refusal::Direction));
    let with = |place: usize, byte: u8| {
        let mut bytes = end;
        bytes[place] = byte;
        bundle_of_bytes(&bytes).expect_err("a damaged end").number()
    };
    assert_eq!(
        (with(3, 0), with(8, 2), with(9, 4), with(10, 1)),
        (8, 7, 6, 7)
    );
    let far = |dx: i32, dy: i32| bundle(&[line_end(dx, dy, I)]).map(|_| ());
    assert_eq!(far(2_000_000_000, -2_000_000_000), Ok(()));
    assert_eq!(far(2_000_000_001, 0), Err(Refusal::Direction));
    assert_eq!(far(0, i32::MIN), Err(Refusal::Direction));
}

const POSITIONS: [CoordPos; 3] = [CoordPos::Inside, CoordPos::OnBoundary, CoordPos::Outside];

const DIMENSIONS: [Dimensions; 4] = [
    Dimensions::Empty,
    Dimensions::ZeroDimensional,
    Dimensions::OneDimensional,
    Dimensions::TwoDimensional,
];

/// Each cell, set and raised to each dimension over each: `get` sees it there, and every other cell as it was.
#[test]
fn get_set_and_set_at_least_mean_one_cell() {
    for (row, a) in POSITIONS.into_iter().enumerate() {
        for (column, b) in POSITIONS.into_iter().enumerate() {
            for old in DIMENSIONS {
                for new in DIMENSIONS {
                    let mut given = matrix("012F012F0").cells();
                    given[3 * row + column] = old.number();
                    one_cell(IntersectionMatrix::from_cells(given), a, b, old, new);
                }
            }
        }
    }
}

fn one_cell(given: IntersectionMatrix, a: CoordPos, b: CoordPos, old: Dimensions, new: Dimensions) {
    let (mut set, mut raised, mut same) = (given, given, given);
    set.set(a, b, new);
    raised.set_at_least(a, b, new);
    same.set_at_least_if_in_both(Some(a), None, Dimensions::TwoDimensional);
    same.set_at_least_if_in_both(None, Some(b), Dimensions::TwoDimensional);
    assert_eq!(same, given);
    assert_eq!(given.get(a, b), old);
    assert_eq!(set.get(a, b), new);
    assert_eq!(raised.get(a, b), old.max(new));
    set.set(a, b, old);
    raised.set(a, b, old);
    assert_eq!((set, raised), (given, given));
    assert_eq!(given.transposed().get(b, a), old);
}

/// Over all 262,144 matrices: one call for eleven answers says what eleven calls say; letters are read back; numbers above 3
/// are read as 2; the transposed matrix exchanges within and contains, coveredby and covers.
#[test]
fn all_matrices() {
    for number in 0..1 << 18 {
        let cells: [u8; 9] = std::array::from_fn(|at| (number >> (2 * at) & 3) as u8);
        let matrix = IntersectionMatrix::from_cells(cells);
        let answers = matrix.answers();
        assert_eq!(
            answers,
            Predicate::ALL.map(|predicate| matrix.ask(predicate))
        );
        assert_eq!(
            IntersectionMatrix::from_bytes(&matrix.letters()),
            Ok(matrix)
        );
        assert_eq!(
            IntersectionMatrix::read_report(&matrix.report()),
            Ok((matrix, 12))
        );
        let larger = cells.map(|cell| if cell == 3 { 200 } else { cell });
        assert_eq!(IntersectionMatrix::from_cells(larger), matrix);
        let turned = matrix.transposed();
        assert_eq!(turned.transposed(), matrix);
        assert_eq!(
            (turned.is_within(), turned.is_covers()),
            (answers[3], answers[5])
        );
    }
}

/// The three answers of the verdict, over what can still be reached: every matrix with no cell lower.
mod verdict {
    use super::*;
    use misonkandi::Verdict;

    fn numbered(number: usize) -> IntersectionMatrix {
        let cell = |at: usize| (number >> (2 * at) & 3) as u8;
        IntersectionMatrix::from_cells(std::array::from_fn(cell))
    }

    /// For every matrix the questions (one bit each) to which all that can still be reached say yes, and those to which
    /// some does. Raising a cell by one makes a matrix's number larger, so the largest comes first.
    fn reachable(asked: impl Fn(IntersectionMatrix) -> u32) -> Vec<(u32, u32)> {
        let mut told = vec![(0, 0); 1 << 18];
        for number in (0..1 << 18).rev() {
            let now = asked(numbered(number));
            let mut both = (now, now);
            for at in (0..9).filter(|at| number >> (2 * at) & 3 != 3) {
                let (all, some) = told[number + (1 << (2 * at))];
                both = (both.0 & all, both.1 | some);
            }
            told[number] = both;
        }
        told
    }

    fn expected((all, some): (u32, u32), bit: u32) -> Verdict {
        match (all >> bit & 1, some >> bit & 1) {
            (1, _) => Verdict::YesForGood,
            (_, 0) => Verdict::NoForGood,
            _ => Verdict::Open,
        }
    }

    #[test]
    fn of_every_predicate_on_every_matrix() {
        let bits = |matrix: IntersectionMatrix| {
            let answers = matrix.answers();
            answers
                .iter()
                .rev()
                .fold(0, |sum, &yes| 2 * sum + u32::from(yes))
        };
        for (number, told) in reachable(bits).into_iter().enumerate() {
            for predicate in Predicate::ALL {
                let verdict = numbered(number).verdict(predicate);
                assert_eq!(verdict, expected(told, predicate.number()));
            }
        }
    }

    #[test]
    fn of_patterns_on_every_matrix() {
        let patterns = [
            "FF*FF****",
            "T*F**F***",
            "T*****FF*",
            "T*T***T**",
            "0********",
            "1*T***T**",
            "*********",
            "tttffffff",
            "222222222",
            "T1*0F****",
            "****2***2",
            "F0F1F2FtF",
        ];
        let bits = |matrix: IntersectionMatrix| {
            let yes = patterns.map(|pattern| matrix.matches(pattern).expect("a good pattern"));
            yes.iter()
                .rev()
                .fold(0, |sum, &yes| 2 * sum + u32::from(yes))
        };
        for (number, told) in reachable(bits).into_iter().enumerate() {
            for (bit, pattern) in patterns.into_iter().enumerate() {
                let verdict = numbered(number).verdict_of_pattern(pattern);
                assert_eq!(verdict, Ok(expected(told, bit as u32)));
            }
        }
    }
}
