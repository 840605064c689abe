//! The predicates by name, and the crate beside the header that it declares again.

use std::collections::BTreeSet;
use std::fs;

use misonkandi::{
    CoordPos, Dimensions, END_BYTES, LABEL_BYTES, MOST_COMMISSION_BYTES, MOST_CONVERTED_BYTES,
    MOST_CORNERS, MOST_ENDS, MOST_ENDS_OF_VERSION_1, MOST_RECORD_BYTES, MOST_WKT_BYTES,
    NoSuchPredicate, OutlinesRefusal, PIECES_BYTES, Predicate, REPORT_BYTES, Refusal,
    SHORT_REPORT_BYTES, ShapeKind, Which,
};

const FOLDER: &str = env!("CARGO_MANIFEST_DIR");

fn read(path: &str) -> String {
    fs::read_to_string(format!("{FOLDER}/{path}")).unwrap_or_else(|error| panic!("{path}: {error}"))
}

fn header() -> String {
    read("../../crates/misonkandi/misonkandi.h")
}

#[test]
fn a_predicate_by_its_name_and_by_no_other() {
    for predicate in Predicate::ALL {
        assert_eq!(predicate.name().parse(), Ok(predicate));
        assert_eq!(predicate.to_string().parse(), Ok(predicate));
        let name = predicate.name();
        let others = [
            name.to_uppercase(),
            format!("{name} "),
            format!(" {name}"),
            format!("{name}\0"),
            name[1..].into(),
            name[..name.len() - 1].into(),
        ];
        for other in others {
            assert_eq!(other.parse::<Predicate>(), Err(NoSuchPredicate));
        }
    }
    for other in ["", "x", "equal-topo", "covered_by", "ääääääää"] {
        assert_eq!(other.parse::<Predicate>(), Err(NoSuchPredicate));
    }
    let long = "disjoint".repeat(10_000);
    assert_eq!(long.parse::<Predicate>(), Err(NoSuchPredicate));
}

/// The regions' names in the header, in their order.
const REGIONS: [&str; 9] = [
    "DISJOINT",
    "MEET",
    "OVERLAP",
    "EQUAL",
    "INSIDE",
    "COVERED_BY",
    "CONTAINS",
    "COVERS",
    "NONE_OF_THESE",
];

/// The functions that a text declares.
fn declared(text: &str) -> BTreeSet<&str> {
    text.lines()
        .map(str::trim_start)
        .filter(|line| !line.starts_with('*') && !line.starts_with('/'))
        .filter_map(|line| {
            let line = line.split_once('(')?.0;
            ["uint32_t ", "uint64_t ", "void ", "pub fn ", "pub safe fn "]
                .iter()
                .find_map(|start| line.strip_prefix(start))
        })
        .filter(|name| name.starts_with("misonkandi_"))
        .collect()
}

#[test]
fn the_header_s_functions_are_the_crate_s() {
    let (header, crate_s) = (header(), read("src/c.rs"));
    let names = declared(&header);
    assert_eq!(names, declared(&crate_s));
    assert_eq!(names.len(), 46);
}

/// The lines between the braces of a struct, without what is said of them.
fn inside<'a>(text: &'a str, first: &str) -> Vec<&'a str> {
    let inside = text.split_once(first).expect("the struct").1;
    let inside = inside.split('}').next().expect("a part");
    let lines = inside
        .lines()
        .map(|line| line.split("/*").next().expect("a part").trim());
    lines.filter(|line| !line.is_empty()).collect()
}

#[test]
fn the_header_s_state_is_the_crate_s() {
    let (header, crate_s) = (header(), read("src/c.rs"));
    let state = inside(&header, "typedef struct misonkandi_pieces {");
    assert_eq!(state, ["uint8_t bytes[MISONKANDI_PIECES_BYTES];"]);
    let state = inside(&crate_s, "pub struct Pieces {");
    assert_eq!(state, [format!("bytes: [u8; {PIECES_BYTES}],")]);
}

/// The value of a name of the header, from its `#define` or its enum. An enum's case without a number follows the last.
fn value(header: &str, name: &str) -> u64 {
    let name = format!("MISONKANDI_{name}");
    let mut next = 0;
    for line in header.lines() {
        if let Some(defined) = line.strip_prefix("#define ") {
            match defined.split_once(' ') {
                Some((left, right)) if left == name => return number(right),
                _ => continue,
            }
        }
        let line = line.split("/*").next().expect("a part");
        if line.starts_with("enum ") {
            next = 0;
        }
        let cases = line.rsplit('{').next().expect("a part").split(',');
        for case in cases.map(|case| case.trim_matches([' ', '}', ';'])) {
            let (left, right) = case.split_once(" = ").unwrap_or((case, ""));
            if !left.starts_with("MISONKANDI_") {
                continue;
            }
            let here = if right.is_empty() {
                next
            } else {
                number(right)
            };
            if left == name {
                return here;
            }
            next = here + 1;
        }
    }
    panic!("the header has no {name}")
}

fn number(text: &str) -> u64 {
    match text.strip_prefix("0x") {
        Some(hex) => u64::from_str_radix(hex.trim_end_matches('u'), 16).expect("a number"),
        None => text.parse().expect("a number"),
    }
}

#[test]
fn the_header_s_numbers_are_the_crate_s() {
    let header = header();
    let value = |name: &str| value(&header, name);
    for predicate in Predicate::ALL {
        let name = predicate.name().to_uppercase();
        assert_eq!(value(&name), u64::from(predicate.number()));
    }
    assert_eq!(value("ROWS"), Predicate::ALL.len() as u64);
    for (number, name) in REGIONS.into_iter().enumerate() {
        assert_eq!(value(&format!("REGION_{name}")), number as u64);
    }
    let positions = [
        ("NONE", None),
        ("INSIDE", Some(CoordPos::Inside)),
        ("ON_BOUNDARY", Some(CoordPos::OnBoundary)),
        ("OUTSIDE", Some(CoordPos::Outside)),
    ];
    for (name, position) in positions {
        assert_eq!(value(name), u64::from(CoordPos::code(position)));
    }
    let dimensions = [
        ("DIMENSION_F", Dimensions::Empty),
        ("DIMENSION_0", Dimensions::ZeroDimensional),
        ("DIMENSION_1", Dimensions::OneDimensional),
        ("DIMENSION_2", Dimensions::TwoDimensional),
    ];
    for (name, dimension) in dimensions {
        assert_eq!(value(name), u64::from(dimension.number()));
    }
    let refusals = [
        ("SHORT", Refusal::Short),
        ("VERSION", Refusal::Version),
        ("KIND", Refusal::Kind),
        ("LENGTH", Refusal::Length),
        ("ENDS", Refusal::Ends),
        ("POSITION_CODE", Refusal::PositionCode),
        ("LABEL_KIND", Refusal::LabelKind),
        ("DIRECTION", Refusal::Direction),
        ("MISSING_LEFT", Refusal::MissingLeft),
        ("NOT_NINE_BYTES", Refusal::NotNineBytes),
        ("BAD_BYTE", Refusal::BadByte(0)),
        ("NO_ROOM", Refusal::NoRoom),
        ("NOT_A_PLACE", Refusal::NotAPlace),
        ("TOP_BITS", Refusal::TopBits),
        ("NO_NUMBER_LEFT", Refusal::NoNumberLeft),
        ("CORNER_COUNT", Refusal::CornerCount),
        ("OUT_OF_RANGE", Refusal::OutOfRange),
        ("EQUAL_CORNERS", Refusal::EqualCorners),
        ("BAD_TEXT", Refusal::BadText(0)),
        ("RING_OPEN", Refusal::RingOpen),
    ];
    for (name, refusal) in refusals {
        let name = format!("REFUSAL_{name}");
        assert_eq!(value(&name), u64::from(refusal.number()));
    }
    let sides = OutlinesRefusal::Sides {
        of: Which::A,
        first: 0,
        second: 2,
    };
    let across = OutlinesRefusal::SidesAcross { a: 0, b: 2 };
    for (name, refusal) in [("SIDES", sides), ("SIDES_ACROSS", across)] {
        let name = format!("REFUSAL_{name}");
        assert_eq!(value(&name), u64::from(refusal.number()));
    }
    let kinds = [
        ("POINT", ShapeKind::Point),
        ("LINESTRING", ShapeKind::LineString),
        ("POLYGON", ShapeKind::Polygon),
    ];
    for (name, kind) in kinds {
        let name = format!("SHAPE_{name}");
        assert_eq!(value(&name), u64::from(kind.number()));
    }
    let sizes = [
        ("LABEL_BYTES", LABEL_BYTES),
        ("END_BYTES", END_BYTES),
        ("MOST_COMMISSION_BYTES", MOST_COMMISSION_BYTES),
        ("MOST_CONVERTED_BYTES", MOST_CONVERTED_BYTES),
        ("MOST_CORNERS", MOST_CORNERS),
        ("MOST_ENDS", MOST_ENDS),
        ("MOST_ENDS_OF_VERSION_1", MOST_ENDS_OF_VERSION_1),
        ("MOST_RECORD_BYTES", MOST_RECORD_BYTES),
        ("MOST_WKT_BYTES", MOST_WKT_BYTES),
        ("PIECES_BYTES", PIECES_BYTES),
        ("REPORT_BYTES", REPORT_BYTES),
        ("SHORT_REPORT_BYTES", SHORT_REPORT_BYTES),
    ];
    for (name, size) in sizes {
        assert_eq!(value(name), size as u64);
    }
    assert_eq!(value("NO_SUCH_ROW"), 0xFFFF_FFFF);
    assert_eq!(
        (value("NO_FOR_GOOD"), value("YES_FOR_GOOD"), value("OPEN")),
        (0, 1, 2)
    );
    assert_eq!((value("POINT"), value("BOX")), (0, 1));
    let version = ["MAJOR", "MINOR", "PATCH"].map(|part| value(&format!("VERSION_{part}")));
    let version = version.map(|part| part.to_string()).join(".");
    assert_eq!(version, env!("CARGO_PKG_VERSION"));
    assert!(header.contains(&format!("#define MISONKANDI_VERSION \"{version}\"\n")));
}

/// Each "Promised: `name`, FILE" of the documentation leads to a file of the repository that has the name.
#[test]
fn what_is_promised_is_there() {
    let mut promises = 0;
    for file in fs::read_dir(format!("{FOLDER}/src")).expect("the sources") {
        let text = fs::read_to_string(file.expect("a file").path()).expect("a text");
        let lines = text
            .lines()
            .map(|line| line.trim_start().trim_start_matches(['/', '!']).trim());
        let text = lines.collect::<Vec<_>>().join(" ");
        for (at, _) in text.match_indices("crates/") {
            let path = text[at..]
                .split([' ', '`', ')', ';', ':', ','])
                .next()
                .expect("a path");
            let path = path.trim_end_matches('.');
            let stored = read(&format!("../../{path}"));
            let mut before = text[..at].trim_end_matches([' ', '(']);
            while let Some(rest) = before.strip_suffix("`,") {
                let (rest, name) = rest.rsplit_once('`').expect("a name between two marks");
                assert!(stored.contains(name), "{path} has no {name}");
                promises += 1;
                before = rest.trim_end();
            }
        }
    }
    assert!(promises > 15, "{promises} promises");
}
