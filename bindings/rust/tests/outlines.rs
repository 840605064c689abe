//! Request R-8: a point in an outline. The answers are worked by hand, most of them drawn: a letter for each whole
//! point, `I`, `B` or `.` for Inside, OnBoundary, Outside.

use misonkandi::{CoordPos, MOST_CORNERS, Outline, Refusal, point_in_outline};

type Corners = Vec<(i32, i32)>;

const MOST: i32 = 1_000_000_000;
const SQUARE: [(i32, i32); 4] = [(0, 0), (4, 0), (4, 4), (0, 4)];

fn numbers(corners: &[(i32, i32)]) -> Vec<i32> {
    corners.iter().flat_map(|&(x, y)| [x, y]).collect()
}

fn corners_of(numbers: &[i32]) -> Corners {
    let (pairs, rest) = numbers.as_chunks::<2>();
    assert!(rest.is_empty());
    pairs.iter().map(|&[x, y]| (x, y)).collect()
}

/// The answer to an outline and to its numbers, which is one.
fn position(corners: &[(i32, i32)], x: i32, y: i32) -> CoordPos {
    let outline = Outline::new(corners).expect("a good outline");
    let answer = outline.position((x, y));
    assert_eq!(point_in_outline(&numbers(corners), x, y), answer);
    answer.expect("a good point")
}

fn letter(position: CoordPos) -> char {
    match position {
        CoordPos::Inside => 'I',
        CoordPos::OnBoundary => 'B',
        CoordPos::Outside => '.',
    }
}

/// The letters of the points from x = -1 on and from y = -1 up, the highest row first.
fn drawn(corners: &[(i32, i32)], wide: i32, high: i32) -> Vec<String> {
    let row = |y| {
        let points = (-1..wide - 1).map(|x| letter(position(corners, x, y)));
        points.collect()
    };
    (-1..high - 1).rev().map(row).collect()
}

/// The numbers of an outline, and its drawing, row by row.
const DRAWINGS: [(&[i32], &str); 6] = [
    (
        &[0, 0, 4, 0, 4, 4, 0, 4],
        "....... .BBBBB. .BIIIB. .BIIIB. .BIIIB. .BBBBB. .......",
    ),
    // A notch in the upper wall: its corner (2, 2) is level with points on both sides.
    (
        &[0, 0, 4, 0, 4, 4, 2, 2, 0, 4],
        "....... .B...B. .BB.BB. .BIBIB. .BIIIB. .BBBBB. .......",
    ),
    // A room in the shape of a U: walls are level with points on both sides.
    (
        &[0, 0, 6, 0, 6, 4, 4, 4, 4, 2, 2, 2, 2, 4, 0, 4],
        "......... .BBB.BBB. .BIB.BIB. .BIBBBIB. .BIIIIIB. .BBBBBBB. .........",
    ),
    // A bow tie: its sides cross at (2, 2).
    (
        &[0, 0, 4, 4, 4, 0, 0, 4],
        "....... .B...B. .BB.BB. .BIBIB. .BB.BB. .B...B. .......",
    ),
    // Twice around the square: a half line crosses two sides or none.
    (
        &[0, 0, 4, 0, 4, 4, 0, 4, 0, 0, 4, 0, 4, 4, 0, 4],
        "....... .BBBBB. .B...B. .B...B. .B...B. .BBBBB. .......",
    ),
    // There and back along a line: nothing lies inside.
    (
        &[0, 0, 4, 4, 2, 2],
        "....... .....B. ....B.. ...B... ..B.... .B..... .......",
    ),
];

/// Each outline's corners and rows.
fn drawings() -> impl Iterator<Item = (Corners, Vec<&'static str>)> {
    let parted = |(numbers, rows): (_, &'static str)| {
        (corners_of(numbers), rows.split_whitespace().collect())
    };
    DRAWINGS.into_iter().map(parted)
}

#[test]
fn as_drawn() {
    for (corners, rows) in drawings() {
        let (wide, high) = (rows[0].len() as i32, rows.len() as i32);
        assert_eq!(drawn(&corners, wide, high), rows, "{corners:?}");
    }
}

/// Every start of the list, both ways round.
#[test]
fn where_the_corners_start_and_which_way_they_go() {
    for (corners, rows) in drawings() {
        let (wide, high) = (rows[0].len() as i32, rows.len() as i32);
        for start in 0..corners.len() {
            let mut turned = corners.clone();
            turned.rotate_left(start);
            assert_eq!(drawn(&turned, wide, high), rows, "{turned:?}");
            turned.reverse();
            assert_eq!(drawn(&turned, wide, high), rows, "{turned:?}");
        }
    }
}

/// Outline and points moved into each corner of the range.
#[test]
fn moved() {
    for (corners, rows) in drawings() {
        let high = rows.len() as i32;
        let low = 9 - MOST;
        for (dx, dy) in [(low, low), (-low, low), (-low, -low), (low, -low)] {
            let far: Corners = corners.iter().map(|&(x, y)| (x + dx, y + dy)).collect();
            for (y, row) in (-1..high - 1).rev().zip(&rows) {
                for (x, due) in (-1..).zip(row.chars()) {
                    assert_eq!(letter(position(&far, x + dx, y + dy)), due);
                }
            }
        }
    }
}

#[test]
fn at_the_limits() {
    let whole = [(-MOST, -MOST), (MOST, -MOST), (MOST, MOST), (-MOST, MOST)];
    assert_eq!(position(&whole, 0, 0), CoordPos::Inside);
    assert_eq!(position(&whole, MOST - 1, 1 - MOST), CoordPos::Inside);
    for (x, y) in whole {
        assert_eq!(position(&whole, x, y), CoordPos::OnBoundary);
        assert_eq!(position(&whole, x, 1), CoordPos::OnBoundary);
    }
    // The long side passes half a unit below (0, 0), and 1/2,000,000,000 below (1 - MOST, 1 - MOST) and above
    // (MOST - 1, MOST - 2).
    let slanted = [(-MOST, -MOST), (MOST, -MOST), (MOST, MOST - 1)];
    assert_eq!(position(&slanted, 0, -1), CoordPos::Inside);
    assert_eq!(position(&slanted, 0, 0), CoordPos::Outside);
    assert_eq!(position(&slanted, 1 - MOST, 1 - MOST), CoordPos::Outside);
    assert_eq!(position(&slanted, MOST - 1, MOST - 2), CoordPos::Inside);
    assert_eq!(position(&slanted, MOST - 1, MOST - 1), CoordPos::Outside);
    assert_eq!(position(&slanted, MOST, MOST), CoordPos::Outside);
    assert_eq!(position(&slanted, MOST, MOST - 1), CoordPos::OnBoundary);
    assert_eq!(position(&slanted, -MOST, MOST), CoordPos::Outside);
}

/// A saw of 63 corners, each tooth one high, and one corner far below.
fn saw() -> Corners {
    let teeth = (0..63).map(|x| (x, x % 2));
    teeth.chain([(31, -10)]).collect()
}

#[test]
fn sixty_four_corners() {
    let saw = saw();
    assert_eq!(saw.len(), MOST_CORNERS);
    for x in 1..62 {
        let due = if x % 2 == 0 { 'B' } else { 'I' };
        assert_eq!(letter(position(&saw, x, 0)), due);
        let due = if x % 2 == 0 { '.' } else { 'B' };
        assert_eq!(letter(position(&saw, x, 1)), due);
    }
    for (x, y, due) in [(-1, 0, '.'), (3, -1, '.'), (4, -1, 'I'), (31, -10, 'B')] {
        assert_eq!(letter(position(&saw, x, y)), due);
    }
}

/// What both forms refuse for the corners, whatever the point.
fn refused(corners: &[(i32, i32)]) -> Refusal {
    let refusal = Outline::new(corners).expect_err("no outline");
    for (x, y) in [(0, 0), (MOST, -MOST), (1, 2)] {
        assert_eq!(point_in_outline(&numbers(corners), x, y), Err(refusal));
    }
    refusal
}

#[test]
fn a_wrong_count_of_corners() {
    for count in [0, 1, 2] {
        assert_eq!(refused(&SQUARE[..count]), Refusal::CornerCount);
    }
    let mut more = saw();
    more.push((32, -11));
    assert_eq!(refused(&more), Refusal::CornerCount);
    for count in [66, 128, 256, 259, 65_539] {
        assert_eq!(refused(&vec![(7, 7); count]), Refusal::CornerCount);
    }
    // Half a corner.
    let numbers = numbers(&saw());
    for count in (1..128).step_by(2) {
        let half = point_in_outline(&numbers[..count], 0, 0);
        assert_eq!(half, Err(Refusal::CornerCount));
    }
    // It comes before a coordinate out of range and before equal corners.
    assert_eq!(refused(&[(i32::MIN, 0); 2]), Refusal::CornerCount);
    assert_eq!(refused(&[(i32::MIN, 0); 65]), Refusal::CornerCount);
    assert_eq!(
        point_in_outline(&[0; 7], i32::MAX, 0),
        Err(Refusal::CornerCount)
    );
}

#[test]
fn a_coordinate_out_of_range() {
    let square = Outline::new(&SQUARE).expect("a good outline");
    for far in [MOST + 1, -MOST - 1, i32::MAX, i32::MIN] {
        for at in 0..8 {
            let mut numbers = numbers(&SQUARE);
            numbers[at] = far;
            assert_eq!(refused(&corners_of(&numbers)), Refusal::OutOfRange);
        }
        for point in [(far, 0), (0, far), (far, far)] {
            let answer = square.position(point);
            assert_eq!(answer, Err(Refusal::OutOfRange));
        }
        // It comes before equal corners: a corner's, and the point's.
        assert_eq!(refused(&[(0, 0), (0, 0), (far, 0)]), Refusal::OutOfRange);
        let both = point_in_outline(&[0; 6], 0, far);
        assert_eq!(both, Err(Refusal::OutOfRange));
    }
    for x in [MOST, -MOST] {
        assert_eq!(position(&SQUARE, x, 5), CoordPos::Outside);
        assert_eq!(position(&SQUARE, 5, x), CoordPos::Outside);
    }
}

#[test]
fn equal_neighbours() {
    assert_eq!(refused(&[(0, 0); 3]), Refusal::EqualCorners);
    let saw = saw();
    // The last place makes the last corner equal to the first.
    for at in 0..MOST_CORNERS {
        let mut equal = saw.clone();
        equal[at] = equal[(at + 1) % MOST_CORNERS];
        assert_eq!(refused(&equal), Refusal::EqualCorners);
    }
    // One coordinate alone may be the same, and corners that are no neighbours may be equal: two triangles at (2, 2).
    let two = [(0, 0), (2, 2), (4, 4), (4, 0), (2, 2), (0, 4)];
    assert_eq!(
        drawn(&two, 7, 7),
        [
            ".......", ".B...B.", ".BB.BB.", ".BIBIB.", ".BB.BB.", ".B...B.", "......."
        ]
    );
}

#[test]
fn numbers_and_words() {
    let refusals = [
        (Refusal::CornerCount, 16),
        (Refusal::OutOfRange, 17),
        (Refusal::EqualCorners, 18),
    ];
    for (refusal, number) in refusals {
        assert_eq!((refusal.number(), refusal.place()), (number, None));
        assert!(
            refusal
                .to_string()
                .starts_with(&format!("refused {number}: "))
        );
    }
}

#[test]
fn an_outline_keeps_its_corners() {
    let saw = saw();
    let outline = Outline::new(&saw).expect("a good outline");
    assert_eq!(outline.corners().collect::<Corners>(), saw);
    assert_eq!(outline.corners().len(), MOST_CORNERS);
    let triangle = Outline::new(&SQUARE[..3]).expect("a good outline");
    assert_eq!(format!("{triangle:?}"), "Outline[(0, 0), (4, 0), (4, 4)]");
    assert_ne!(outline, triangle);
    assert_eq!(triangle, Outline::new(&SQUARE[..3]).expect("the same"));
}
