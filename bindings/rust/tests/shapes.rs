//! Request R-9: shapes as WKT text. The answers are worked by hand from the request's sentences; what must be written
//! is spelled by Rust's own numbers.

use misonkandi::{
    CoordPos, MOST_CORNERS, MOST_WKT_BYTES, Outline, Refusal, Shape, ShapeKind, read_wkt, write_wkt,
};

type Corners = Vec<(i32, i32)>;

const MOST: i32 = 1_000_000_000;
const KINDS: [ShapeKind; 3] = [ShapeKind::Point, ShapeKind::LineString, ShapeKind::Polygon];

fn read(text: &str) -> Result<Shape, Refusal> {
    let shape = text.parse();
    assert_eq!(Shape::read_wkt(text.as_bytes()), shape);
    shape
}

fn shape(kind: ShapeKind, corners: &[(i32, i32)]) -> Shape {
    Shape::new(kind, corners).expect("a good shape")
}

fn fits(kind: ShapeKind, count: usize) -> bool {
    match kind {
        ShapeKind::Point => count == 1,
        ShapeKind::LineString => (2..=64).contains(&count),
        ShapeKind::Polygon => (3..=64).contains(&count),
    }
}

/// Pairs with something between them.
fn joined(corners: &[(i32, i32)], between: &str) -> String {
    let pairs = corners.iter().map(|(x, y)| format!("{x} {y}"));
    pairs.collect::<Vec<_>>().join(between)
}

/// The fixed spelling.
fn spelled(kind: ShapeKind, corners: &[(i32, i32)]) -> String {
    let pairs = joined(corners, ", ");
    match kind {
        ShapeKind::Point => format!("POINT ({pairs})"),
        ShapeKind::LineString => format!("LINESTRING ({pairs})"),
        ShapeKind::Polygon => format!("POLYGON (({pairs}, {}))", joined(&corners[..1], "")),
    }
}

/// As many corners, of numbers that are spelled in many ways.
fn corners(count: usize) -> Corners {
    let some = [
        0,
        -1,
        9,
        10,
        -10,
        99,
        100,
        12_345,
        -999_999_999,
        MOST,
        -MOST,
        1_000_000,
    ];
    let number = |at: usize| some[at % some.len()];
    (0..count)
        .map(|at| (number(at), number(3 * at + at / 12)))
        .collect()
}

/// Shapes of every count of corners are written as they must be, and read back.
#[test]
fn there_and_back() {
    for count in 1..=MOST_CORNERS {
        for kind in KINDS.into_iter().filter(|&kind| fits(kind, count)) {
            let corners = corners(count);
            let shape = shape(kind, &corners);
            let text = shape.to_string();
            assert_eq!(text, spelled(kind, &corners));
            assert_eq!(read(&text), Ok(shape.clone()));
            assert_eq!(shape.kind(), kind);
            assert_eq!(shape.corners().collect::<Corners>(), corners);
            assert_eq!(shape.corners().len(), count);
        }
    }
}

/// Texts, what they are, and how they are written.
#[test]
fn read_in_many_spellings_and_written_in_one() {
    let texts = [
        ("POINT(1 2)", "POINT (1 2)"),
        ("point(1 2)", "POINT (1 2)"),
        ("pOiNt  (  -1   2  )", "POINT (-1 2)"),
        ("Point(-0 -00)", "POINT (0 0)"),
        ("POINT(007 -0012)", "POINT (7 -12)"),
        (
            "POINT(1000000000 -1000000000)",
            "POINT (1000000000 -1000000000)",
        ),
        ("LineString(1 2,3 4)", "LINESTRING (1 2, 3 4)"),
        (
            "linestring ( 1  2 , 3  4 , 1 2 )",
            "LINESTRING (1 2, 3 4, 1 2)",
        ),
        ("LINESTRING(1 2,1 2)", "LINESTRING (1 2, 1 2)"),
        (
            "POLYGON((0 0,4 0,4 3,0 0))",
            "POLYGON ((0 0, 4 0, 4 3, 0 0))",
        ),
        (
            "polygon ( ( 0 0 , 4 0 , 4 3 , -0 00 ) )",
            "POLYGON ((0 0, 4 0, 4 3, 0 0))",
        ),
        (
            "POLYGON((5 5,5 5,5 5,5 5))",
            "POLYGON ((5 5, 5 5, 5 5, 5 5))",
        ),
    ];
    for (text, written) in texts {
        let shape = read(text).expect(text);
        assert_eq!(shape.to_string(), written);
        assert_eq!(read(written), Ok(shape));
    }
}

#[test]
fn any_case_and_any_spaces() {
    for cases in 0..1 << 7 {
        let letter = |(at, letter): (usize, char)| match cases >> at & 1 {
            1 => letter.to_ascii_lowercase(),
            _ => letter,
        };
        let keyword = "POLYGON".chars().enumerate().map(letter);
        let text = keyword.collect::<String>() + "((1 1,2 2,3 1,1 1))";
        assert_eq!(read(&text), read("POLYGON ((1 1, 2 2, 3 1, 1 1))"));
    }
    let tokens = ["LINESTRING", "(", "-1", "20", ",", "300", "-4", ")"];
    let due = read("LINESTRING (-1 20, 300 -4)");
    assert!(due.is_ok());
    for at in 0..tokens.len() - 1 {
        for wide in [0, 1, 2, 300] {
            let space = |place| match place {
                _ if place == at => " ".repeat(wide),
                2 | 5 => " ".into(),
                _ => String::new(),
            };
            let spaced = (0..)
                .zip(tokens)
                .map(|(k, token)| format!("{token}{}", space(k)));
            let text = spaced.collect::<String>();
            // Without a space the second number's minus is where no number goes on, or the two numbers are one.
            let answer = match (at, wide) {
                (2, 0) => Err(Refusal::BadText("LINESTRING(-120".len())),
                (5, 0) => Err(Refusal::BadText("LINESTRING(-1 20,300".len())),
                _ => due.clone(),
            };
            assert_eq!(read(&text), answer, "{text}");
        }
    }
}

/// Each text with the place at which no text could go on.
#[test]
fn where_no_text_goes_on() {
    let texts = [
        ("", 0),
        (" POINT(1 2)", 0),
        ("POINT(1 2) ", 10),
        ("POINT(1 2)\n", 10),
        ("POINT(1 2)\0", 10),
        ("POINT(1 2", 9),
        ("POINT(1 2,3 4)", 9),
        ("POINT()", 6),
        ("POINT EMPTY", 6),
        ("POINT Z (1 2 3)", 6),
        ("POINT(1 2 3)", 10),
        ("POINT((1 2))", 6),
        ("POINT(1,2)", 7),
        ("POINT(1)", 7),
        ("POINT(+1 2)", 6),
        ("POINT(1.5 2)", 7),
        ("POINT(1e3 2)", 7),
        ("POINT(- 1 2)", 7),
        ("POINT(--1 2)", 7),
        ("POINT(1 -)", 9),
        ("POINT(1\t2)", 7),
        ("POINT\t(1 2)", 5),
        ("POINT[1 2]", 5),
        ("POLYNT(1 2)", 4),
        ("PO INT(1 2)", 2),
        ("POINTS(1 2)", 5),
        ("LINE STRING(1 2,3 4)", 4),
        ("LINESTRING()", 11),
        ("LINESTRING(1 2,)", 15),
        ("LINESTRING(1 2,,3 4)", 15),
        ("LINESTRING(,1 2)", 11),
        ("LINESTRING(1 2;3 4)", 14),
        ("LINESTRING((1 2,3 4))", 11),
        ("POLYGON(0 0,4 0,4 4,0 0)", 8),
        ("POLYGON((0 0,4 0,4 4,0 0)", 25),
        ("POLYGON((0 0,4 0,4 4,0 0),(1 1,2 1,2 2,1 1))", 25),
        ("POLYGON(((0 0,4 0,4 4,0 0)))", 9),
        ("MULTIPOINT(1 2)", 0),
        ("Point(1 2é)", 9),
        ("PO\u{131}NT(1 2)", 2),
    ];
    for (text, place) in texts {
        let refusal = Refusal::BadText(place);
        assert_eq!(read(text), Err(refusal), "{text:?}");
        assert_eq!((refusal.number(), refusal.place()), (19, Some(place)));
    }
    for byte in 0..=255 {
        if !b"lLpP".contains(&byte) {
            assert_eq!(Shape::read_wkt(&[byte]), Err(Refusal::BadText(0)));
        }
    }
}

/// A good text broken off anywhere could go on from its end, and a byte that no text has is told at its own place, also
/// where a word has no room for the place.
#[test]
fn broken_off_or_damaged_anywhere() {
    let room = shape(ShapeKind::Polygon, &corners(MOST_CORNERS)).to_string();
    assert!(room.len() > 600);
    let texts = [
        room.as_str(),
        "LineString ( 0 -0 , 1 1 )",
        "POINT(1 2)",
        // No shape by counts, range or ring, and still a text.
        "LINESTRING(1 2)",
        "POINT(9999999999 0)",
        "POLYGON((0 0,4 0,4 4,0 1))",
    ];
    for text in texts {
        for place in 0..text.len() {
            assert_eq!(read(&text[..place]), Err(Refusal::BadText(place)));
            let mut bytes = text.as_bytes().to_vec();
            for byte in [b'#', 0, 255, b'\t'] {
                bytes[place] = byte;
                let answer = Shape::read_wkt(&bytes);
                assert_eq!(answer, Err(Refusal::BadText(place)), "{text} {place}");
            }
        }
    }
}

/// Far beyond the word's 255.
#[test]
fn the_whole_place() {
    for wide in [254, 255, 256, 300, 65_536, 100_000] {
        let text = format!("POINT{}[1 2)", " ".repeat(wide));
        assert_eq!(read(&text), Err(Refusal::BadText(5 + wide)));
        let text = format!("POINT({}x", "7".repeat(wide));
        assert_eq!(read(&text), Err(Refusal::BadText(6 + wide)));
        let text = format!("LINESTRING(1 2{}", ",1 2".repeat(wide));
        assert_eq!(read(&text), Err(Refusal::BadText(text.len())));
    }
}

/// A ring of so many pairs, its last the first again, or a line of them.
fn listed(kind: ShapeKind, pairs: usize) -> String {
    let mut listed = corners(pairs);
    listed[pairs - 1] = listed[0];
    let pairs = joined(&listed, ",");
    match kind {
        ShapeKind::Polygon => format!("POLYGON(({pairs}))"),
        _ => format!("LINESTRING({pairs})"),
    }
}

#[test]
fn a_wrong_count_of_corners() {
    for pairs in (1..=67).chain([128, 256, 258, 65_538]) {
        let line = read(&listed(ShapeKind::LineString, pairs));
        match pairs {
            2..=64 => assert_eq!(line.expect("a good line").corners().len(), pairs),
            _ => assert_eq!(line, Err(Refusal::CornerCount)),
        }
        let ring = read(&listed(ShapeKind::Polygon, pairs));
        match pairs {
            4..=65 => assert_eq!(ring.expect("a good ring").corners().len(), pairs - 1),
            _ => assert_eq!(ring, Err(Refusal::CornerCount)),
        }
    }
    for count in (0..=66).chain([128, 257, 65_537]) {
        let made = KINDS.map(|kind| Shape::new(kind, &corners(count)).err());
        let due = KINDS.map(|kind| (!fits(kind, count)).then_some(Refusal::CornerCount));
        assert_eq!(made, due, "{count}");
    }
}

#[test]
fn a_number_out_of_range() {
    let good = ["1000000000", "-1000000000", "0001000000000", "-0"];
    let far = [
        "1000000001",
        "-1000000001",
        "2147483648",
        "4294967296",
        "4294967297",
        "18446744073709551616",
        "-18446744073709551617",
    ];
    let place = |number: &str| [format!("POINT({number} 1)"), format!("POINT(1 {number})")];
    for text in good.iter().flat_map(|number| place(number)) {
        assert!(read(&text).is_ok(), "{text}");
    }
    for text in far.iter().flat_map(|number| place(number)) {
        assert_eq!(read(&text), Err(Refusal::OutOfRange), "{text}");
    }
    for wide in [10, 20, 40, 1_000] {
        let zeros = "0".repeat(wide);
        let padded = read(&format!("POINT(-{zeros}5 {zeros})"));
        assert_eq!(padded, read("POINT (-5 0)"));
        assert_eq!(
            read(&format!("POINT(1{zeros} 0)")),
            Err(Refusal::OutOfRange)
        );
    }
    for far in [MOST + 1, -MOST - 1, i32::MAX, i32::MIN] {
        for corner in [(far, 0), (0, far)] {
            let made = Shape::new(ShapeKind::Point, &[corner]);
            assert_eq!(made, Err(Refusal::OutOfRange));
            let made = Shape::new(ShapeKind::LineString, &[(0, 0), corner]);
            assert_eq!(made, Err(Refusal::OutOfRange));
        }
    }
}

#[test]
fn an_open_ring() {
    let open = [
        "POLYGON((0 0,4 0,4 4,0 1))",
        "POLYGON((0 0,4 0,4 4,1 0))",
        "POLYGON((1 0,4 0,4 4,-1 0))",
        "POLYGON((0 0,4 0,4 4,4 0))",
    ];
    for text in open {
        assert_eq!(read(text), Err(Refusal::RingOpen), "{text}");
    }
    let closed = read("POLYGON((0 -7,4 0,4 4,-000 -07))").expect("a good ring");
    assert_eq!(
        closed.corners().collect::<Corners>(),
        [(0, -7), (4, 0), (4, 4)]
    );
    assert_eq!(
        (Refusal::RingOpen.number(), Refusal::RingOpen.place()),
        (22, None)
    );
}

/// 19, then 16, then 17, then 22; and where it is written 16, 17, 12.
#[test]
fn the_order_of_refusals() {
    let texts = [
        ("LINESTRING(2000000000 0", Refusal::BadText(23)),
        ("POLYGON((2000000000 0,1 1)", Refusal::BadText(26)),
        ("LINESTRING(2000000000 0)", Refusal::CornerCount),
        ("POLYGON((2000000000 0,1 1,2 2))", Refusal::CornerCount),
        ("POLYGON((0 0,4 0,2000000000 4,0 1))", Refusal::OutOfRange),
        (
            "POLYGON((2000000001 0,4 0,4 4,2000000002 0))",
            Refusal::OutOfRange,
        ),
        ("POLYGON((0 0,4 0,4 4,0 1))", Refusal::RingOpen),
    ];
    for (text, refusal) in texts {
        assert_eq!(read(text), Err(refusal), "{text}");
        // No number that was lent is touched.
        let mut xy = [9; 128];
        assert_eq!(read_wkt(text.as_bytes(), &mut xy), Err(refusal));
        assert_eq!(xy, [9; 128]);
    }
    let far = [MOST + 1, 0, 0, 0];
    let refused = [
        (2, &far[..2], Refusal::CornerCount),
        (2, &far[..3], Refusal::CornerCount),
        (0, &far[..2], Refusal::CornerCount),
        (4, &far[..4], Refusal::CornerCount),
        (u32::MAX, &far[..4], Refusal::CornerCount),
        (1, &far[..2], Refusal::OutOfRange),
        (2, &far[..4], Refusal::OutOfRange),
        (1, &far[2..], Refusal::NoRoom),
    ];
    for (kind, xy, refusal) in refused {
        let mut buffer = [7; 10]; // a byte too few for POINT (0 0)
        assert_eq!(write_wkt(kind, xy, &mut buffer, 0), Err(refusal));
        assert_eq!(write_wkt(kind, xy, &mut buffer, 11), Err(refusal));
        assert_eq!(buffer, [7; 10]);
    }
}

#[test]
fn numbers_after_the_corners_stay() {
    let mut xy = [9; 128];
    let answer = read_wkt(b"POLYGON((1 2,3 4,-5 6,1 2))", &mut xy);
    assert_eq!(answer, Ok((ShapeKind::Polygon, 3)));
    assert_eq!(xy[..6], [1, 2, 3, 4, -5, 6]);
    assert_eq!(xy[6..], [9; 122]);
}

/// Into a buffer of every size around the text's, at every offset near it and far from it.
#[test]
fn rooms() {
    let line = shape(ShapeKind::LineString, &[(0, -1), (20, 3)]);
    let text = line.to_string();
    assert_eq!(text, "LINESTRING (0 -1, 20 3)");
    for room in 0..text.len() + 4 {
        let far = [usize::MAX, usize::MAX - text.len() + 1, usize::MAX / 2 + 1];
        for offset in (0..=room + 1).chain(far) {
            let end = offset.checked_add(text.len()).filter(|&end| end <= room);
            let mut due = vec![7; room];
            if let Some(end) = end {
                due[offset..end].copy_from_slice(text.as_bytes());
            }
            let mut buffer = vec![7; room];
            let answer = end.map(|_| text.len()).ok_or(Refusal::NoRoom);
            assert_eq!(line.write_wkt(&mut buffer, offset), answer);
            assert_eq!(buffer, due);
        }
    }
}

#[test]
fn the_longest_text() {
    let ring = shape(ShapeKind::Polygon, &[(-MOST, -MOST); MOST_CORNERS]);
    let text = ring.to_string();
    assert_eq!(text.len(), MOST_WKT_BYTES);
    assert_eq!(
        text,
        spelled(ShapeKind::Polygon, &[(-MOST, -MOST); MOST_CORNERS])
    );
    assert_eq!(read(&text), Ok(ring));
}

#[test]
fn outlines_and_shapes() {
    let text = "POLYGON ((0 0, 10 0, 10 6, 7 6, 5 3, 3 6, 0 6, 0 0))";
    let room = read(text).expect("a good ring");
    let outline = Outline::try_from(&room).expect("a good outline");
    assert!(outline.corners().eq(room.corners()));
    assert_eq!(outline.position((2, 3)), Ok(CoordPos::Inside));
    assert_eq!(outline.position((5, 5)), Ok(CoordPos::Outside));
    assert_eq!(Shape::from(&outline), room);
    // A shape may have equal neighbours; an outline may not.
    let doubled = read("POLYGON((0 0,4 0,4 0,4 4,0 0))").expect("a good ring");
    assert_eq!(Outline::try_from(&doubled), Err(Refusal::EqualCorners));
    let point = shape(ShapeKind::Point, &[(1, 2)]);
    let line = shape(ShapeKind::LineString, &[(0, 0), (4, 0), (4, 4)]);
    for other in [point, line] {
        assert_eq!(Outline::try_from(&other), Err(Refusal::CornerCount));
    }
}

#[test]
fn shown() {
    let point = shape(ShapeKind::Point, &[(1, -2)]);
    assert_eq!(format!("{point:?}"), "Shape(POINT (1 -2))");
    assert_eq!(format!("{point:>14}"), "  POINT (1 -2)");
    assert_ne!(point, shape(ShapeKind::Point, &[(-2, 1)]));
    let line = shape(ShapeKind::LineString, &corners(3));
    let ring = shape(ShapeKind::Polygon, &corners(3));
    assert_ne!(line, ring);
    let told = [
        (Refusal::BadText(300), "refused 19 at 300: "),
        (Refusal::RingOpen, "refused 22: "),
    ];
    for (refusal, start) in told {
        assert!(refusal.to_string().starts_with(start), "{refusal}");
    }
    for kind in KINDS {
        assert_eq!(ShapeKind::of_number(kind.number().into()), Some(kind));
    }
    assert_eq!([0, 4, 257, u64::MAX].map(ShapeKind::of_number), [None; 4]);
}
