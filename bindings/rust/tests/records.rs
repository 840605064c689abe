//! The encoder of records: its bytes against bytes written by hand, and what it refuses against what those would be.

use std::collections::HashSet;

use misonkandi::{
    CoordPos, EdgeEnd, IntersectionMatrix, Label, MOST_CONVERTED_BYTES, MOST_ENDS,
    MOST_ENDS_OF_VERSION_1, MOST_RECORD_BYTES, Record, Refusal, Sides, convert_record,
};

const ON: [CoordPos; 2] = [CoordPos::OnBoundary; 2];
const AREAS: [Option<CoordPos>; 2] = [Some(CoordPos::Inside), None];

fn codes(codes: [u8; 3]) -> Sides {
    let [on, left, right] = codes.map(|code| CoordPos::of_code(code).expect("a code"));
    Sides { on, left, right }
}

fn end(dx: i32, dy: i32, area: bool, a: [u8; 3], b: [u8; 3]) -> EdgeEnd {
    let label = Label {
        area,
        a: codes(a),
        b: codes(b),
    };
    EdgeEnd { dx, dy, label }
}

#[test]
fn a_node_byte_by_byte() {
    let ends = [
        end(2, -3, true, [2, 1, 3], [0, 0, 0]),
        end(-2_000_000_000, 0, false, [1, 0, 0], [3, 0, 0]),
    ];
    let record = Record::node([CoordPos::Inside, CoordPos::Outside], AREAS, &ends);
    #[rustfmt::skip]
    let bytes = [
        0, 37, 1, 1, 1, 3, 1, 0, 2,
        0, 0, 0, 2, 255, 255, 255, 253, 1, 2, 1, 3, 0, 0, 0,
        136, 202, 108, 0, 0, 0, 0, 0, 0, 1, 0, 0, 3, 0, 0,
    ];
    assert_eq!(record.as_deref(), Ok(&bytes[..]));
    assert_eq!(record.map(|record| record.as_ref().len()), Ok(39));
}

#[test]
fn a_node_without_ends_wherever_it_lies() {
    let all = [CoordPos::Inside, CoordPos::OnBoundary, CoordPos::Outside];
    for (row, a) in (0..).zip(all) {
        for (column, b) in (0..).zip(all) {
            let record = Record::node([a, b], [None, Some(a)], &[]).expect("a good record");
            assert_eq!(*record, [0, 7, 1, 1, row + 1, column + 1, 0, row + 1, 0]);
            let mut matrix = IntersectionMatrix::empty();
            assert_eq!(matrix.pour_record(&record), Ok(9));
            let mut raised = [0; 9];
            raised[usize::from(3 * row + column)] = 1;
            assert_eq!(matrix.cells(), raised);
        }
    }
}

/// All 8,192 labels: an isolated edge is refused for a line with a side, and for nothing else.
#[test]
fn every_edge() {
    for number in 0..1u32 << 13 {
        let code = |at: u32| (number >> (2 * at) & 3) as u8;
        let bytes = [
            (number >> 12) as u8,
            code(0),
            code(1),
            code(2),
            code(3),
            code(4),
            code(5),
        ];
        let label = Label::of_bytes(bytes).expect("a label");
        let sides = bytes[2] | bytes[3] | bytes[5] | bytes[6];
        match Record::edge(label) {
            Ok(record) => {
                assert!(label.area || sides == 0);
                assert_eq!(*record, [&[0, 9, 1, 2][..], &bytes].concat());
            }
            Err(refusal) => {
                assert_eq!(refusal, Refusal::LabelKind);
                assert!(!label.area && sides != 0);
            }
        }
    }
}

#[test]
fn a_node_is_refused_as_its_bytes_would_be() {
    let refused = |ends: &[EdgeEnd]| Record::node(ON, AREAS, ends).expect_err("no record");
    let line = end(1, 0, false, [1, 0, 0], [0; 3]);
    let none = end(0, 0, false, [1, 0, 0], [0; 3]);
    let far = end(0, i32::MIN, false, [1, 0, 0], [0; 3]);
    let sided = end(1, 0, false, [1, 1, 0], [0; 3]);
    let left = end(1, 0, true, [2, 1, 3], [0; 3]);
    let no_left = end(0, 1, true, [2, 0, 3], [0; 3]);
    assert_eq!(refused(&[line, none]), Refusal::Direction);
    assert_eq!(refused(&[far, sided]), Refusal::Direction);
    assert_eq!(refused(&[sided, far]), Refusal::LabelKind);
    assert_eq!(refused(&[left, no_left]), Refusal::MissingLeft);
    assert_eq!(refused(&[left, no_left, none]), Refusal::Direction);
    // More than 600 ends come first, and no count is cut to two bytes: 65,536 and 65,568 ends aren't 0 and 32.
    for count in [601, 65_536, 65_568, 70_000] {
        assert_eq!(refused(&vec![none; count]), Refusal::Ends);
    }
    let most = Record::node(ON, AREAS, &[line; MOST_ENDS]).expect("600 ends");
    assert_eq!(most.len(), MOST_RECORD_BYTES);
    assert_eq!(IntersectionMatrix::empty().pour_record(&most), Ok(9010));
}

/// The bytes of a node in a version, by hand.
fn by_hand(version: u8, ends: &[EdgeEnd]) -> Vec<u8> {
    let bytes: Vec<u8> = ends.iter().flat_map(|end| end.bytes()).collect();
    let number = ends.len() as u16;
    let number = &number.to_be_bytes()[2 - usize::from(version)..];
    let length = (6 + number.len() + bytes.len()) as u16;
    let head = [version, 1, 2, 2, 1, 0];
    [&length.to_be_bytes()[..], &head, number, &bytes].concat()
}

/// Up to 32 ends in version 1, above in version 2; and what either pours.
#[test]
fn the_version_is_the_count_s() {
    let ends: Vec<EdgeEnd> = (1..=600)
        .map(|at| end(601 - at, at, at % 2 == 1, [2, 1, 3], [0; 3]))
        .map(|mut end| {
            if !end.label.area {
                end.label.a = codes([1, 0, 0]);
            }
            end
        })
        .collect();
    let mut all = HashSet::new();
    for count in [0, 1, 31, 32, 33, 64, 255, 256, 257, 599, 600] {
        let record = Record::node(ON, AREAS, &ends[..count]).expect("a good record");
        let version = 1 + u8::from(count > MOST_ENDS_OF_VERSION_1);
        assert_eq!(*record, by_hand(version, &ends[..count]));
        all.insert(record.clone());
        all.insert(record.clone());

        let mut poured = IntersectionMatrix::empty();
        assert_eq!(poured.pour_record(&record), Ok(record.len()));
        let other = by_hand(3 - version, &ends[..count]);
        let mut room = [7; MOST_CONVERTED_BYTES];
        if count > MOST_ENDS_OF_VERSION_1 {
            assert_eq!(convert_record(&record, &mut room, 0), Err(Refusal::Ends));
            continue;
        }
        assert_eq!(convert_record(&record, &mut room, 0), Ok(other.len()));
        assert_eq!(room[..other.len()], other);
        assert!(room[other.len()..].iter().all(|&byte| byte == 7));
        let mut again = IntersectionMatrix::empty();
        assert_eq!(again.pour_record(&other), Ok(other.len()));
        assert_eq!(again, poured);
    }
    assert_eq!(all.len(), 11);
}

/// Version 2 is refused in version 1's order, with its own limit and its own lengths.
#[test]
fn version_2_is_refused_in_the_same_order() {
    let line = end(1, 0, false, [1, 0, 0], [0; 3]);
    let good = by_hand(2, &[line; 40]);
    let with = |changes: &[(usize, u8)]| {
        let mut bytes = good.clone();
        for &(place, byte) in changes {
            bytes[place] = byte;
        }
        let mut kept = IntersectionMatrix::empty();
        let answer = kept.pour_record(&bytes).expect_err("a damaged record");
        assert_eq!(kept, IntersectionMatrix::empty());
        answer.number()
    };
    assert_eq!(with(&[(2, 3)]), 2);
    assert_eq!(with(&[(2, 0)]), 2);
    assert_eq!(with(&[(2, 1)]), 4); // version 1 of no ends, by its byte, and longer than those
    assert_eq!(with(&[(2, 3), (3, 3)]), 2);
    assert_eq!(with(&[(3, 3)]), 3);
    assert_eq!(with(&[(0, 0), (1, 7)]), 4); // a node below 8
    assert_eq!(with(&[(8, 2), (9, 89)]), 5); // 601
    assert_eq!(with(&[(8, 2), (9, 88)]), 4); // 600, and the length of 40
    assert_eq!(with(&[(8, 1)]), 4); // 296
    assert_eq!(with(&[(4, 0), (10, 255)]), 6);
    assert_eq!(with(&[(13, 0)]), 8);
    assert_eq!(with(&[(18, 2)]), 7);
    assert_eq!(with(&[(20, 1)]), 7); // a line with a side
}
