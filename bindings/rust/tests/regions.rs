//! Regions beside request R-13's patterns, written down here again.

use misonkandi::{IntersectionMatrix, NoSuchRegion, Place, Predicate, Refusal, Region};

/// Document 02's patterns, in its order.
const PATTERNS: [&str; 8] = [
    "FFTFFTTTT",
    "FFTFTTTTT",
    "TTTTTTTTT",
    "TFFFTFFFT",
    "TFFTFFTTT",
    "TFFTTFTTT",
    "TTTFFTFFT",
    "TTTFTTFFT",
];

fn by_patterns(matrix: &IntersectionMatrix) -> Region {
    let fits = |pattern: &&str| matrix.matches(pattern) == Ok(true);
    let row = PATTERNS.iter().position(fits).unwrap_or(8);
    Region::ALL[row]
}

/// With the two boxes exchanged.
fn exchanged(region: Region) -> Region {
    match region {
        Region::Inside => Region::Contains,
        Region::CoveredBy => Region::Covers,
        Region::Contains => Region::Inside,
        Region::Covers => Region::CoveredBy,
        other => other,
    }
}

/// What a name says of two boxes.
fn implied(region: Region) -> &'static [Predicate] {
    use Predicate::*;
    match region {
        Region::Disjoint => &[Disjoint],
        Region::Meet => &[Intersects, Touches],
        Region::Overlap => &[Intersects, Overlaps],
        Region::Equal => &[Intersects, Within, Contains, EqualTopo, CoveredBy, Covers],
        Region::Inside | Region::CoveredBy => &[Intersects, Within, CoveredBy],
        Region::Contains => &[Intersects, Contains, Covers, ContainsProperly],
        Region::Covers => &[Intersects, Contains, Covers],
        Region::NoneOfThese => &[],
    }
}

#[test]
fn every_matrix_has_the_region_of_its_pattern() {
    let mut met = [0; 9];
    for number in 0..1 << 18 {
        let cells = std::array::from_fn(|place| (number >> (2 * place) & 3) as u8);
        let matrix = IntersectionMatrix::from_cells(cells);
        let region = matrix.region();
        assert_eq!(region, by_patterns(&matrix));
        met[region.number() as usize] += 1;
    }
    // Three dimensions at each T.
    let count = |pattern: &str| 3_usize.pow(pattern.matches('T').count() as u32);
    for (row, pattern) in PATTERNS.iter().enumerate() {
        assert_eq!(met[row], count(pattern));
    }
}

/// Every box with whole corners of 0 to 3.
fn boxes() -> Vec<[f64; 4]> {
    let mut boxes = Vec::new();
    for number in 0..256 {
        let [x, y, u, v] = std::array::from_fn(|at| f64::from(number >> (2 * at) & 3));
        if x < u && y < v {
            boxes.push([x, y, u, v]);
        }
    }
    boxes
}

/// Every order of eight coordinates is among these pairs.
#[test]
fn every_two_boxes_have_one_of_the_eight() {
    let place = |[x, y, u, v]: [f64; 4]| Place::rect(x, y, u, v);
    let boxes = boxes();
    assert_eq!(boxes.len(), 36);
    for &a in &boxes {
        for &b in &boxes {
            let region = Region::of_boxes(a, b).expect("two boxes");
            assert_ne!(region, Region::NoneOfThese);
            let matrix = place(a).relate(&place(b)).expect("two boxes");
            assert_eq!(region, matrix.region());
            assert_eq!(Region::of_boxes(b, a), Ok(exchanged(region)));
            let hold = Predicate::ALL.into_iter().filter(|&p| matrix.ask(p));
            assert_eq!(hold.collect::<Vec<_>>(), implied(region));
        }
    }
}

#[test]
fn what_is_no_box_is_refused() {
    let good = [0.0, 0.0, 1.0, 1.0];
    let mut bad = vec![
        [0.0, 0.0, 0.0, 1.0],
        [0.0, 2.0, 1.0, 1.0],
        [0.0, 0.0, -0.0, 1.0],
    ];
    for at in 0..4 {
        for value in [f64::NAN, f64::INFINITY, f64::NEG_INFINITY] {
            let mut numbers = good;
            numbers[at] = value;
            bad.push(numbers);
        }
    }
    for &numbers in &bad {
        assert_eq!(Region::of_boxes(numbers, good), Err(Refusal::NotAPlace));
        assert_eq!(Region::of_boxes(good, numbers), Err(Refusal::NotAPlace));
        assert_eq!(Region::of_boxes(numbers, numbers), Err(Refusal::NotAPlace));
    }
}

#[test]
fn a_region_by_its_name_and_by_no_other() {
    for region in Region::ALL {
        let name = region.name();
        assert_eq!(name.parse(), Ok(region));
        assert_eq!(region.to_string(), name);
        let others = [
            name.to_uppercase(),
            format!("{name} "),
            name[1..].into(),
            name[..name.len() - 1].into(),
        ];
        for other in others {
            assert_eq!(other.parse::<Region>(), Err(NoSuchRegion));
        }
    }
    assert_eq!("".parse::<Region>(), Err(NoSuchRegion));
    assert_eq!(format!("{:>6}|", Region::Meet), "  meet|");
}

/// The library's bytes of a name are the crate's.
#[test]
fn names_are_written() {
    for region in Region::ALL {
        let name = region.name().as_bytes();
        for room in 0..20 {
            for offset in 0..=room + 1 {
                let mut buffer = vec![b'.'; room];
                let answer = region.write_name(&mut buffer, offset);
                let mut due = vec![b'.'; room];
                if offset + name.len() <= room {
                    due[offset..offset + name.len()].copy_from_slice(name);
                    assert_eq!(answer, Ok(name.len()));
                } else {
                    assert_eq!(answer, Err(Refusal::NoRoom));
                }
                assert_eq!(buffer, due);
            }
        }
        let mut buffer = [b'.'; 13];
        assert_eq!(
            region.write_name(&mut buffer, usize::MAX),
            Err(Refusal::NoRoom)
        );
        assert_eq!(buffer, [b'.'; 13]);
    }
}
