//! Request R-10: the matrix of two outlines, and the records that it is poured from. The answers are worked by hand, and
//! those of boxes are document 01's.

use misonkandi::{
    IntersectionMatrix, MOST_COMMISSION_BYTES, MOST_CORNERS, Outline, OutlinesRefusal, Place,
    Refusal, Which, commission_outlines, relate_outlines,
};

type Corners = Vec<(i32, i32)>;

const MOST: i32 = 1_000_000_000;

fn outline(corners: &[(i32, i32)]) -> Outline {
    Outline::new(corners).expect("a good outline")
}

fn numbers(corners: &[(i32, i32)]) -> Vec<i32> {
    corners.iter().flat_map(|&(x, y)| [x, y]).collect()
}

/// The distinct corners of both, and how many records of 9 bytes and of 15 an end they make.
fn record_bytes(a: &[(i32, i32)], b: &[(i32, i32)]) -> (usize, usize) {
    let records = a.len() + b.iter().filter(|&corner| !a.contains(corner)).count();
    (records, 9 * records + 15 * 2 * (a.len() + b.len()))
}

/// The records of two outlines: they pour the matrix, all of them are accepted, and they fit exactly where they fit.
fn commissioned(a: &[(i32, i32)], b: &[(i32, i32)], matrix: IntersectionMatrix) {
    let (records, bytes) = record_bytes(a, b);
    let (first, second) = (outline(a), outline(b));
    let mut buffer = [7; MOST_COMMISSION_BYTES + 3];
    assert_eq!(first.commission(&second, &mut buffer, 3), Ok(bytes));
    assert_eq!(buffer[..3], [7; 3]);
    assert!(buffer[3 + bytes..].iter().all(|&byte| byte == 7));
    let written = &buffer[3..3 + bytes];

    let mut poured = IntersectionMatrix::empty_disjoint();
    let floor = poured.pour_floor(written);
    assert_eq!((floor.used, floor.records), (bytes as u64, records as u64));
    assert_eq!((floor.refusal, poured), (None, matrix));

    let mut exact = vec![7; bytes];
    assert_eq!(first.commission(&second, &mut exact, 0), Ok(bytes));
    assert_eq!(exact, written);
    exact.fill(7);
    for (room, offset) in [(bytes - 1, 0), (bytes, 1), (bytes, usize::MAX), (0, 0)] {
        let refusal = first.commission(&second, &mut exact[..room], offset);
        assert_eq!(refusal, Err(OutlinesRefusal::NoRoom));
        assert!(exact.iter().all(|&byte| byte == 7));
    }
}

/// The matrix of two outlines, by themselves and as numbers, and transposed where they are exchanged.
fn related(a: &[(i32, i32)], b: &[(i32, i32)], due: &str) {
    let matrix: IntersectionMatrix = due.parse().expect("nine letters");
    let transposed = matrix.transposed();
    assert_eq!(outline(a).relate(&outline(b)), Ok(matrix), "{a:?} {b:?}");
    assert_eq!(outline(b).relate(&outline(a)), Ok(transposed));
    assert_eq!(relate_outlines(&numbers(a), &numbers(b)), Ok(matrix));
    commissioned(a, b, matrix);
    commissioned(b, a, transposed);
}

/// The same from every start of A and both ways round.
fn related_anyhow(a: &[(i32, i32)], b: &[(i32, i32)], due: &str) {
    let mut turned = a.to_vec();
    for _ in a {
        turned.rotate_left(1);
        related(&turned, b, due);
        turned.reverse();
        related(&turned, b, due);
        turned.reverse();
    }
}

const ROOM: [(i32, i32); 4] = [(0, 0), (4, 0), (4, 4), (0, 4)];

#[test]
fn as_worked_by_hand() {
    related_anyhow(&ROOM, &ROOM, "2FFF1FFF2");
    related_anyhow(&ROOM, &[(1, 1), (3, 1), (2, 3)], "212FF1FF2"); // B within A
    related_anyhow(&ROOM, &[(-9, -2), (13, -2), (2, 20)], "2FF1FF212"); // A within B
    related_anyhow(&ROOM, &[(5, 0), (9, 0), (9, 4)], "FF2FF1212"); // apart
    related_anyhow(&ROOM, &[(4, 4), (9, 4), (9, 7)], "FF2F01212"); // one corner
    related_anyhow(&ROOM, &[(4, 0), (9, 0), (9, 4), (4, 4)], "FF2F11212"); // one wall
    // Both cut where their walls cross, at (4, 2) and (2, 4).
    let cut = [(0, 0), (4, 0), (4, 2), (4, 4), (2, 4), (0, 4)];
    let across = [(2, 2), (4, 2), (6, 2), (6, 6), (2, 6), (2, 4)];
    related_anyhow(&cut, &across, "212101212");
    // B in a corner of A, whose two walls are cut there.
    let covering = [(0, 0), (2, 0), (4, 0), (4, 4), (0, 4), (0, 2)];
    related_anyhow(&covering, &[(0, 0), (2, 0), (2, 2), (0, 2)], "212F11FF2");
    // B fills the notch of a U.
    let notched = [
        (0, 0),
        (6, 0),
        (6, 4),
        (4, 4),
        (4, 2),
        (2, 2),
        (2, 4),
        (0, 4),
    ];
    related_anyhow(&notched, &[(2, 2), (4, 2), (4, 4), (2, 4)], "FF2F11212");
    // B stands in a notch of A and touches it in (2, 2) alone.
    let notched = [(0, 0), (4, 0), (2, 2), (4, 4), (0, 4)];
    related_anyhow(&notched, &[(2, 2), (6, 0), (6, 4)], "FF2F01212");
}

/// A box with a corner at each whole number of its walls, so that any two are cut at each other.
fn gridded(x: i32, y: i32, u: i32, v: i32) -> Corners {
    let low = (x..u).map(|at| (at, y));
    let right = (y..v).map(|at| (u, at));
    let high = (x + 1..=u).rev().map(|at| (at, v));
    let left = (y + 1..=v).rev().map(|at| (x, at));
    low.chain(right).chain(high).chain(left).collect()
}

/// Every box of the grid from 0 to 3.
fn boxes() -> Vec<[i32; 4]> {
    let spans = || (0..3).flat_map(|low| (low + 1..4).map(move |high| (low, high)));
    let boxes = spans().flat_map(|(x, u)| spans().map(move |(y, v)| [x, y, u, v]));
    boxes.collect()
}

#[test]
fn boxes_as_document_01_relates_them() {
    assert_eq!(boxes().len(), 36);
    for first in boxes() {
        for second in boxes() {
            let [[x, y, u, v], [p, q, r, s]] = [first, second];
            let place = |[x, y, u, v]: [i32; 4]| {
                Place::rect(f64::from(x), f64::from(y), f64::from(u), f64::from(v))
            };
            let due = place(first).relate(&place(second)).expect("two boxes");
            let (a, b) = (gridded(x, y, u, v), gridded(p, q, r, s));
            related(&a, &b, &due.to_string());
        }
    }
}

#[test]
fn at_the_limits() {
    let whole = [(-MOST, -MOST), (MOST, -MOST), (MOST, MOST), (-MOST, MOST)];
    related_anyhow(&whole, &whole, "2FFF1FFF2"); // directions of 2,000,000,000
    related_anyhow(&whole, &ROOM, "212FF1FF2");
    // The long side passes 1/2,000,000,000 above the corner (MOST - 1, MOST - 2), which lies inside.
    let slanted = [(-MOST, -MOST), (MOST, -MOST), (MOST, MOST - 1)];
    let near = [
        (MOST - 1, MOST - 2),
        (MOST - 2, 1 - MOST),
        (MOST - 1, 1 - MOST),
    ];
    related_anyhow(&slanted, &near, "212FF1FF2");
    let beyond = [(MOST - 1, MOST - 1), (MOST - 1, MOST), (0, MOST)];
    related_anyhow(&slanted, &beyond, "FF2FF1212");
}

/// A saw of 63 corners, each tooth one high, and one corner far below.
fn saw() -> Corners {
    let teeth = (0..63).map(|x| (x, x % 2));
    teeth.chain([(31, -10)]).collect()
}

#[test]
fn sixty_four_corners() {
    let saw = saw();
    assert_eq!(saw.len(), MOST_CORNERS);
    related(&saw, &saw, "2FFF1FFF2");
    let above: Corners = saw.iter().map(|&(x, y)| (x, y + 20)).collect();
    related(&saw, &above, "FF2FF1212");
    assert_eq!(record_bytes(&saw, &above), (128, 4_992)); // the most that two outlines have
}

/// What both forms and both calls refuse, with nothing written.
fn refused(a: &[(i32, i32)], b: &[(i32, i32)]) -> OutlinesRefusal {
    let (first, second) = (numbers(a), numbers(b));
    let refusal = relate_outlines(&first, &second).expect_err("no matrix");
    let mut buffer = [7; MOST_COMMISSION_BYTES];
    for room in [0, 1, MOST_COMMISSION_BYTES] {
        let answer = commission_outlines(&first, &second, &mut buffer[..room], 0);
        assert_eq!(answer, Err(refusal));
    }
    assert!(buffer.iter().all(|&byte| byte == 7));
    if let (Ok(first), Ok(second)) = (Outline::new(a), Outline::new(b)) {
        assert_eq!(first.relate(&second), Err(refusal));
    }
    refusal
}

/// Corners, and the first pair of sides that breaks the rule.
type Pair<'a> = (&'a [(i32, i32)], usize, usize);

const TIE: [(i32, i32); 4] = [(0, 0), (4, 4), (4, 0), (0, 4)];

#[test]
fn numbers_that_are_no_outline() {
    use Refusal::{CornerCount, EqualCorners, OutOfRange};
    let (two, far, equal) = (
        [(0, 0), (4, 0)],
        [(0, 0), (4, 0), (0, MOST + 1)],
        [(0, 0), (4, 0), (4, 0)],
    );
    let bad: [(&[(i32, i32)], Refusal); 3] = [
        (&two, CornerCount),
        (&far, OutOfRange),
        (&equal, EqualCorners),
    ];
    for (a, first) in bad {
        // A is looked at before B, whatever B is; B before any pair of sides.
        for (b, second) in bad {
            assert_eq!(refused(a, b), OutlinesRefusal::Alone(Which::A, first));
            assert_eq!(refused(&TIE, b), OutlinesRefusal::Alone(Which::B, second));
        }
        assert_eq!(refused(a, &TIE), OutlinesRefusal::Alone(Which::A, first));
        assert_eq!(refused(&ROOM, a), OutlinesRefusal::Alone(Which::B, first));
    }
    let room = numbers(&ROOM);
    let half = relate_outlines(&room[..7], &room).expect_err("half a corner");
    assert_eq!(half, OutlinesRefusal::Alone(Which::A, CornerCount));
    assert_eq!((half.number(), half.which()), (16, Some(Which::A)));
    assert_eq!(half.sides(), None);
    assert_eq!(
        half.to_string(),
        "refused 16: a wrong count of corners, of A"
    );
}

#[test]
fn sides_of_one_outline() {
    let pairs: [Pair; 5] = [
        (&TIE, 0, 2),                                      // they cross
        (&[(0, 0), (4, 0), (2, 0), (2, 3)], 0, 1),         // there and back
        (&[(0, 0), (4, 0), (4, 4), (0, 4), (8, 0)], 0, 4), // the last side over the first
        (&[(0, 0), (6, 0), (6, 4), (3, 0), (0, 4)], 0, 2), // a corner in a side's middle
        (&[(0, 0), (3, 0), (1, 2), (3, 4), (1, 2)], 1, 3), // a corner twice: two sides with one end are no neighbours
    ];
    for (corners, first, second) in pairs {
        for (a, b, of) in [
            (corners, &ROOM[..], Which::A),
            (&ROOM[..], corners, Which::B),
        ] {
            let refusal = refused(a, b);
            assert_eq!(refusal, OutlinesRefusal::Sides { of, first, second });
            assert_eq!((refusal.number(), refusal.which()), (20, Some(of)));
            assert_eq!(refusal.sides(), Some((first, second)));
        }
        // A's pair before B's, and either before a pair across.
        let (of, first, second) = (Which::A, first, second);
        assert_eq!(
            refused(corners, &TIE),
            OutlinesRefusal::Sides { of, first, second }
        );
    }
}

#[test]
fn sides_of_two_outlines() {
    let pairs: [Pair; 6] = [
        (&[(2, 2), (6, 2), (6, 3), (2, 3)], 1, 0),   // they cross
        (&[(4, 2), (8, 2), (8, 5)], 1, 0),           // B's corner in the middle of A's side
        (&[(6, 6), (2, 6), (3, -1), (6, -1)], 0, 1), // the first of A's sides comes before the first of B's
        (&[(4, 1), (4, 3), (6, 2)], 1, 0),           // B's side within A's
        (&[(0, 0), (2, 0), (4, 0), (2, 3)], 0, 0),   // A's side is two of B's
        (&[(4, -3), (4, 7), (8, 0)], 0, 0),          // A's corner (4, 0) in the middle of B's side
    ];
    for (b, first, second) in pairs {
        let refusal = refused(&ROOM, b);
        let due = OutlinesRefusal::SidesAcross {
            a: first,
            b: second,
        };
        assert_eq!(refusal, due, "{b:?}");
        assert_eq!((refusal.number(), refusal.which()), (21, None));
        assert_eq!(refusal.sides(), Some((first, second)));
    }
    let text = "refused 21: side 1 of A and side 0 of B meet as they may not";
    assert_eq!(refused(&ROOM, pairs[0].0).to_string(), text);
}
