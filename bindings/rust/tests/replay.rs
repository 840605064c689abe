//! Replays every stored answer of geo 0.33.1, of GEOS and of document 01's rules (crates/replay/stdin, whose head says its
//! form) through the safe wrappers. `cargo test --test replay -- --nocapture` prints how many of each kind.

use std::collections::BTreeMap;
use std::fs;

use misonkandi::{
    CoordPos, END_BYTES, EdgeEnd, IntersectionMatrix, LABEL_BYTES, Label, Masks, Outline,
    OutlinesRefusal, Pieces, Place, Predicate, Refusal, Region, Shape, ShapeKind, Traced, Verdict,
    Which, bundle, bundle_of_bytes, commission_outlines, convert_record, convert_report, floor,
    point_in_outline, read_wkt, relate_coded, relate_outlines, star, star_of_bytes, write_star,
    write_wkt,
};

const FOLDER: &str = concat!(env!("CARGO_MANIFEST_DIR"), "/../../crates/replay/");

/// What a predicate's row is where there is none. The wrappers' types leave no way to ask for it but by a name.
const NO_SUCH_ROW: u32 = 0xFFFF_FFFF;

/// A line: what a call is lent and given, and what must come of it.
struct Case {
    cells: [u8; 9],
    word: u32,
    a: u32,
    b: u32,
    dimension: u8,
    given: Vec<u8>,
    /// What must stand afterwards in what the call may write, without the zeros at its end.
    due: Vec<u8>,
}

fn bytes_of(hex: &str) -> Vec<u8> {
    assert!(hex.is_ascii() && hex.len().is_multiple_of(2), "{hex}");
    let two = |at: usize| u8::from_str_radix(&hex[at..at + 2], 16).expect("two digits");
    (0..hex.len()).step_by(2).map(two).collect()
}

/// A number whose high byte stands first.
fn number(bytes: &[u8]) -> u32 {
    let with = |sum, byte: &u8| 256 * sum + u32::from(*byte);
    bytes.iter().fold(0, with)
}

impl Case {
    fn of(hex: &str) -> Case {
        let mut bytes = bytes_of(hex);
        bytes.resize(bytes.len().max(24), 0);
        let count = number(&bytes[22..24]) as usize;
        bytes.resize(bytes.len().max(24 + count), 0);
        Case {
            cells: bytes[..9].try_into().expect("nine cells"),
            word: number(&bytes[9..13]),
            a: number(&bytes[13..17]),
            b: number(&bytes[17..21]),
            dimension: bytes[21],
            given: bytes[24..24 + count].to_vec(),
            due: bytes[24 + count..].to_vec(),
        }
    }

    fn due<const N: usize>(&self) -> [u8; N] {
        assert!(self.due.len() <= N, "more is due than can be written");
        std::array::from_fn(|at| self.due.get(at).copied().unwrap_or(0))
    }

    fn matrix(&self) -> IntersectionMatrix {
        IntersectionMatrix::from_cells(self.cells)
    }

    /// Where in a buffer to write.
    fn offset(&self) -> usize {
        let offset = u64::from(self.a) << 32 | u64::from(self.b);
        offset.try_into().expect("a number of 64 bits")
    }

    /// A buffer afterwards is what is due.
    fn holds(&self, buffer: &[u8]) {
        let mut due = self.due.clone();
        assert!(due.len() <= buffer.len(), "more is due than is lent");
        due.resize(buffer.len(), 0);
        assert_eq!(buffer, due);
    }

    /// The answer's word is the one that is stored. A place above 255 is 255 in it.
    fn says(&self, answer: Result<u32, Refusal>) {
        let refused = |refusal: Refusal| {
            let place = refusal.place().unwrap_or(0).min(255);
            (1 << 31) + 256 * refusal.number() + place as u32
        };
        assert_eq!(answer.unwrap_or_else(refused), self.word);
    }

    /// The matrix afterwards is what is due, numbers above 3 read as 2.
    fn leaves(&self, matrix: IntersectionMatrix) {
        assert_eq!(matrix, IntersectionMatrix::from_cells(self.due()));
    }
}

fn verdict_number(verdict: Verdict) -> u32 {
    match verdict {
        Verdict::NoForGood => 0,
        Verdict::YesForGood => 1,
        Verdict::Open => 2,
    }
}

fn bits(answers: [bool; 11]) -> u32 {
    let with = |sum, yes: &bool| 2 * sum + u32::from(*yes);
    answers.iter().rev().fold(0, with)
}

/// The eleven answers by geo's eleven methods.
fn by_geos_names(matrix: &IntersectionMatrix) -> [bool; 11] {
    [
        matrix.is_disjoint(),
        matrix.is_intersects(),
        matrix.is_within(),
        matrix.is_contains(),
        matrix.is_equal_topo(),
        matrix.is_coveredby(),
        matrix.is_covers(),
        matrix.is_contains_properly(),
        matrix.is_touches(),
        matrix.is_crosses(),
        matrix.is_overlaps(),
    ]
}

/// r, h, n, g: regions, of a matrix and by name, the name written, and of two boxes.
fn region_case(kind: char, case: &Case) {
    match kind {
        'r' => case.says(Ok(case.matrix().region().number())),
        'h' => {
            let named = str::from_utf8(&case.given)
                .expect("letters")
                .parse::<Region>();
            assert_eq!(named.map_or(NO_SUCH_ROW, Region::number), case.word);
        }
        'n' => {
            let mut buffer = case.given.clone();
            match Region::ALL.get(usize::from(case.dimension)) {
                Some(region) => {
                    let count = region.write_name(&mut buffer, case.offset());
                    case.says(count.map(|count| count as u32));
                }
                None => assert_eq!(case.word, NO_SUCH_ROW),
            }
            case.holds(&buffer);
        }
        _ => {
            let numbers = |from: usize| std::array::from_fn(|at| coordinate(case.given[from + at]));
            case.says(Region::of_boxes(numbers(0), numbers(4)).map(Region::number));
        }
    }
}

/// P, Q, H, V: predicates, by all, by row and by name, and their verdicts.
fn predicate_case(kind: char, case: &Case) {
    let matrix = case.matrix();
    if kind == 'P' {
        case.says(Ok(bits(matrix.answers())));
        case.says(Ok(bits(Predicate::ALL.map(|p| matrix.ask(p)))));
        case.says(Ok(bits(by_geos_names(&matrix))));
        return;
    }
    if kind == 'H' {
        let named = str::from_utf8(&case.given).map(str::parse::<Predicate>);
        let row = named.map_or(NO_SUCH_ROW, |parsed| {
            parsed.map_or(NO_SUCH_ROW, Predicate::number)
        });
        assert_eq!(row, case.word);
        return;
    }
    let Some(&predicate) = Predicate::ALL.get(case.a as usize) else {
        assert_eq!(case.word, NO_SUCH_ROW);
        return;
    };
    match kind {
        'Q' => case.says(Ok(matrix.ask(predicate).into())),
        _ => case.says(Ok(verdict_number(matrix.verdict(predicate)))),
    }
}

/// M, W, T, R: patterns and texts, as any bytes and, where they are one, as a `str`.
fn text_case(kind: char, case: &Case) {
    let (given, text) = (&case.given[..], str::from_utf8(&case.given).ok());
    let mut matrix = case.matrix();
    match kind {
        'M' => {
            let answer = matrix.matches_bytes(given);
            case.says(answer.map(u32::from));
            assert!(text.is_none_or(|text| matrix.matches(text) == answer));
        }
        'W' => {
            let answer = matrix.verdict_of_pattern_bytes(given);
            case.says(answer.map(verdict_number));
            assert!(text.is_none_or(|text| matrix.verdict_of_pattern(text) == answer));
        }
        'T' => {
            let answer = IntersectionMatrix::from_bytes(given);
            case.says(answer.map(|_| 0));
            case.leaves(answer.unwrap_or(matrix));
            assert!(text.is_none_or(|text| text.parse() == answer));
            assert!(answer.is_err() || answer.unwrap().letters() == given);
        }
        _ => {
            let mut other = matrix;
            case.says(matrix.set_at_least_from_bytes(given).map(|()| 0));
            case.leaves(matrix);
            if let Some(text) = text {
                case.says(other.set_at_least_from_string(text).map(|()| 0));
                case.leaves(other);
            }
        }
    }
}

/// O, X, S, L: letters out, transposing, one cell.
fn cell_case(kind: char, case: &Case) {
    let mut matrix = case.matrix();
    match kind {
        'O' => return assert_eq!(matrix.letters(), case.due()),
        'X' => matrix = matrix.transposed(),
        'S' => case.says(matrix.set_coded(case.a, case.b, case.dimension).map(|()| 0)),
        _ => {
            let answer = matrix.set_at_least_coded(case.a, case.b, case.dimension);
            case.says(answer.map(|()| 0));
        }
    }
    case.leaves(matrix);
}

/// The ends that bytes spell, if they spell some.
fn ends_of(bytes: &[u8]) -> Option<Vec<EdgeEnd>> {
    let (ends, rest) = bytes.as_chunks::<END_BYTES>();
    let end = |bytes: &[u8; END_BYTES]| {
        let end = EdgeEnd {
            dx: number(&bytes[..4]) as i32,
            dy: number(&bytes[4..8]) as i32,
            label: Label::of_bytes(bytes[8..].try_into().expect("seven bytes"))?,
        };
        assert_eq!(end.bytes(), *bytes);
        Some(end)
    };
    rest.is_empty().then(|| ends.iter().map(end).collect())?
}

/// B, K: ends as bytes and, where the bytes spell some, with types. A refused call answers no label.
fn ends_case(kind: char, case: &Case) {
    if kind == 'B' {
        let typed = ends_of(&case.given);
        let answer = bundle_of_bytes(&case.given);
        case.says(answer.map(|_| 0));
        assert_eq!(answer.unwrap_or([9; LABEL_BYTES]), case.due());
        let label = answer.map(|bytes| Label::of_bytes(bytes).expect("a label"));
        assert!(typed.is_none_or(|ends| bundle(&ends) == label));
        return;
    }
    // Room for 32 labels; those that are told stand in its front, and behind them the bytes are as they were.
    let mut written = [9; 32 * LABEL_BYTES];
    let answer = write_star(&case.given, case.a, case.b, &mut written);
    case.says(answer.map(|count| count as u32));
    let (front, rest) = written.split_at(LABEL_BYTES * answer.unwrap_or(0));
    let due: [u8; 32 * LABEL_BYTES] = case.due();
    assert_eq!(front, &due[..front.len()]);
    assert!(rest.iter().all(|&byte| byte == 9));
    if answer != Err(Refusal::NoRoom) {
        listed_star(case, front.as_chunks().0, answer);
    }
}

/// The same star as a list of labels, by bytes and, where the bytes spell ends, by ends.
fn listed_star(case: &Case, labels: &[[u8; LABEL_BYTES]], answer: Result<usize, Refusal>) {
    let listed = star_of_bytes(&case.given, case.a, case.b);
    assert_eq!(listed, answer.map(|_| labels.to_vec()));
    let areas = [case.a, case.b].map(|code| CoordPos::of_code(code.try_into().unwrap_or(4)));
    if let (Some(ends), [Some(a), Some(b)]) = (ends_of(&case.given), areas) {
        let label = |bytes: &[u8; LABEL_BYTES]| Label::of_bytes(*bytes).expect("a label");
        let labels = listed.map(|labels| labels.iter().map(label).collect());
        assert_eq!(star(&ends, a, b), labels);
    }
}

/// N, D, E, F, C, Z: a record poured; a report read, written in its long and its short form, converted; a record
/// converted.
fn record_case(kind: char, case: &Case) {
    let mut matrix = case.matrix();
    match kind {
        'N' => {
            let answer = matrix.pour_record(&case.given);
            case.says(answer.map(|used| used as u32));
            case.leaves(matrix);
        }
        'D' => {
            let answer = IntersectionMatrix::read_report(&case.given);
            case.says(answer.map(|(_, used)| used as u32));
            case.leaves(answer.map_or(matrix, |(read, _)| read));
        }
        'C' => {
            let mut given = case.given.clone();
            let (report, buffer) = given.split_at_mut(case.dimension.into());
            let answer = convert_report(report, buffer, case.offset());
            case.says(answer.map(|used| used as u32));
            case.holds(&given);
        }
        'Z' => {
            let mut given = case.given.clone();
            let (record, buffer) = given.split_at_mut(case.a as usize);
            let answer = convert_record(record, buffer, case.b as usize);
            case.says(answer.map(|used| used as u32));
            case.holds(&given);
        }
        _ => {
            let mut buffer = case.given.clone();
            let answer = match kind {
                'E' => matrix.write_report(&mut buffer, case.offset()),
                _ => matrix.write_short_report(&mut buffer, case.offset()),
            };
            case.says(answer.map(|used| used as u32));
            case.holds(&buffer);
        }
    }
}

/// A, Y: a floor in one call, or in two pieces, the first of as many bytes as the dimension says. What is due is nine
/// cells, as they came where nothing is accepted, then the bytes used and the records, eight bytes each.
fn floor_case(kind: char, case: &Case) {
    let told = match kind {
        'A' => floor(case.cells, &case.given),
        _ => {
            let mut pieces = Pieces::from_cells(case.cells);
            let (first, rest) = case.given.split_at(case.dimension.into());
            let pushed = [first, rest].map(|piece| pieces.push(piece).err());
            let told = pieces.finish();
            let for_good = told.refusal.filter(|&refusal| refusal != Refusal::Short);
            assert_eq!(pushed[1], for_good);
            assert!(pushed[0].is_none() || pushed[0] == for_good);
            told
        }
    };
    case.says(told.refusal.map_or(Ok(0), Err));
    let numbers = [told.used, told.records].map(u64::to_be_bytes);
    case.holds(&[&told.cells(), numbers.as_flattened()].concat());

    let mut matrix = case.matrix();
    assert_eq!(matrix.pour_floor(&case.given).refusal, told.refusal);
    assert_eq!(matrix, told.matrix());
}

/// m, p, v: a pattern's masks on a room, a matrix packed and unpacked, all eleven verdicts.
fn room_case(kind: char, case: &Case) {
    match kind {
        'm' => {
            let masks = Masks::from_bytes(&case.given);
            let answer = masks.map(|masks| {
                let (mut matches, mut verdicts) = ([9; 2], [9; 2]);
                masks.match_all(&[case.a], &mut matches).unwrap();
                masks.verdict_all(&[case.a], &mut verdicts).unwrap();
                let (matched, verdict) = (masks.matches(case.a), masks.verdict(case.a));
                assert_eq!(matches, [matched.into(), 9]);
                assert_eq!(Verdict::of(verdicts[0]), Some(verdict));
                assert_eq!(masks.count(&[case.a]), matched.into());
                4 * verdict_number(verdict) + u32::from(matched)
            });
            case.says(answer);
            let text = str::from_utf8(&case.given).ok();
            assert!(text.is_none_or(|text| text.parse() == masks));
        }
        'p' => {
            case.says(Ok(case.matrix().pack()));
            case.leaves(IntersectionMatrix::unpack(case.a));
        }
        _ => {
            let told = case.matrix().verdicts().map(verdict_number);
            assert_eq!(told, case.due::<11>().map(u32::from));
        }
    }
}

/// x, f, t: the ten numbers stand before the record or the floor. What must stand afterwards are the cells, the numbers
/// and, of a floor, its two answers.
fn traced_case(kind: char, case: &Case) {
    let (lent, bytes) = case.given.split_at(40);
    let numbers = std::array::from_fn(|k| number(&lent[4 * k..4 * k + 4]));
    let mut traced = Traced::from_parts(case.cells, numbers);
    let mut counts = Vec::new();
    match kind {
        'x' => case.says(traced.pour_record(bytes).map(|used| used as u32)),
        'f' => {
            let told = traced.pour_floor(bytes);
            case.says(told.refusal.map_or(Ok(0), Err));
            assert_eq!(told.cells(), traced.cells());
            counts.extend([told.used, told.records].map(u64::to_be_bytes).concat());
        }
        _ => traced = traced.transposed(),
    }
    let numbers = traced.numbers().map(u32::to_be_bytes);
    case.holds(&[&traced.cells()[..], numbers.as_flattened(), &counts].concat());
}

fn coordinate(byte: u8) -> f64 {
    match byte {
        0xfc => -0.0,
        0xfd => f64::NEG_INFINITY,
        0xfe => f64::INFINITY,
        0xff => f64::NAN,
        whole => whole.into(),
    }
}

fn place_of(kind: u32, [x, y, u, v]: [f64; 4]) -> Option<Place> {
    match kind {
        0 => Some(Place::point(x, y)),
        1 => Some(Place::rect(x, y, u, v)),
        _ => None,
    }
}

/// G: two places of a kind and four coordinates. A refused call answers no matrix, and the cells lent are nines.
fn place_case(case: &Case) {
    let mut given = case.given.clone();
    given.resize(10, 0);
    let place = |bytes: &[u8]| {
        let coordinates = std::array::from_fn(|at| coordinate(bytes[1 + at]));
        (u32::from(bytes[0]), coordinates)
    };
    let ((kind_a, a), (kind_b, b)) = (place(&given[..5]), place(&given[5..]));
    let answer = relate_coded(kind_a, a, kind_b, b);
    case.says(answer.map(|_| 0));
    assert_eq!(
        answer.map_or(case.cells, |matrix| matrix.cells()),
        case.due()
    );
    if let (Some(a), Some(b)) = (place_of(kind_a, a), place_of(kind_b, b)) {
        assert_eq!(a.relate(&b), answer);
    }
}

/// Numbers of four bytes each, two's complement.
fn numbers_of(bytes: &[u8]) -> Vec<i32> {
    let (fours, rest) = bytes.as_chunks::<4>();
    assert_eq!(rest, [], "numbers of four bytes");
    let xy = fours.iter().map(|bytes| i32::from_be_bytes(*bytes));
    xy.collect()
}

/// The corners that numbers are, if they are whole corners.
fn corners_of(xy: &[i32]) -> Option<Vec<(i32, i32)>> {
    let (pairs, rest) = xy.as_chunks::<2>();
    let corners = pairs.iter().map(|&[x, y]| (x, y));
    rest.is_empty().then(|| corners.collect())
}

/// I: a point (a, b) against the corners of the numbers given. As numbers and, where these are whole corners, as an
/// outline, which is refused where the point (0, 0) would be.
fn outline_case(case: &Case) {
    assert_eq!(case.due, [], "it writes nothing");
    let (x, y) = (case.a as i32, case.b as i32);
    let xy = numbers_of(&case.given);
    let answer = point_in_outline(&xy, x, y);
    case.says(answer.map(|position| CoordPos::code(Some(position)).into()));
    let Some(corners) = corners_of(&xy) else {
        return;
    };
    match Outline::new(&corners) {
        Ok(outline) => assert_eq!(outline.position((x, y)), answer),
        Err(refusal) => assert_eq!(point_in_outline(&xy, 0, 0), Err(refusal)),
    }
}

/// The three numbers beside a refused pair: which outline, 2 for a pair across, and two sides.
fn told_of(refusal: OutlinesRefusal) -> [u64; 3] {
    let which = match refusal.which() {
        Some(Which::A) => 0,
        Some(Which::B) => 1,
        None => 2,
    };
    let (i, j) = refusal.sides().unwrap_or((0, 0));
    [which, i as u64, j as u64]
}

/// o, c: the numbers of A, as many as a says, then those of B. Due are the cells and three numbers that were nines, or a
/// buffer that was nines, written from b on. As numbers and, where both are outlines, as such.
fn outlines_case(kind: char, case: &Case) {
    let xy = numbers_of(&case.given);
    let (a, b) = xy.split_at(xy.len().min(case.a as usize));
    let refused = |refusal: OutlinesRefusal| (1 << 31) + 256 * refusal.number();
    let outlines = [a, b].map(|xy| corners_of(xy).and_then(|corners| Outline::new(&corners).ok()));
    let related = relate_outlines(a, b);
    if let [Some(a), Some(b)] = &outlines {
        assert_eq!(a.relate(b), related);
    }
    if kind == 'o' {
        let (word, cells, told) = match related {
            Ok(matrix) => (0, matrix.cells(), [9; 3]),
            Err(refusal) => (refused(refusal), case.cells, told_of(refusal)),
        };
        assert_eq!(word, case.word);
        return case.holds(&[&cells, told.map(u64::to_be_bytes).as_flattened()].concat());
    }
    let mut buffer = [9; 600];
    let answer = commission_outlines(a, b, &mut buffer, case.b as usize);
    assert_eq!(answer.map_or_else(refused, |used| used as u32), case.word);
    case.holds(&buffer);
}

/// J: a text read. What is due is what stands in three answers of eight bytes and 128 numbers that were nines before
/// the call. A refused one leaves them, but for the last answer: the whole place.
fn read_case(case: &Case) {
    let mut xy = [9; 128];
    let answer = read_wkt(&case.given, &mut xy);
    case.says(answer.map(|_| 0));
    let answers = match answer {
        Ok((kind, count)) => [kind.number().into(), count as u64, 0],
        Err(refusal) => [9, 9, refusal.place().unwrap_or(0) as u64],
    };
    let (answers, xy_bytes) = (answers.map(u64::to_be_bytes), xy.map(i32::to_be_bytes));
    case.holds(&[answers.as_flattened(), xy_bytes.as_flattened()].concat());

    let shape = Shape::read_wkt(&case.given);
    let corners = |count: usize| corners_of(&xy[..2 * count]).expect("whole corners");
    let made = answer.map(|(kind, count)| Shape::new(kind, &corners(count)).expect("a shape"));
    assert_eq!(shape, made);
    let text = str::from_utf8(&case.given).ok();
    assert!(text.is_none_or(|text| text.parse() == shape));
}

/// U: the numbers given, as many as the dimension says, written as the shape of a kind, the first cell, into the bytes
/// given after them. As numbers and, where they are a shape, as such.
fn write_case(case: &Case) {
    let kind = case.cells[0].into();
    let (start, buffer) = case.given.split_at(4 * usize::from(case.dimension));
    let xy = numbers_of(start);
    let mut written = buffer.to_vec();
    let answer = write_wkt(kind, &xy, &mut written, case.offset());
    case.says(answer.map(|used| used as u32));
    case.holds(&[start, &written].concat());

    let (Some(kind), Some(corners)) = (ShapeKind::of_number(kind.into()), corners_of(&xy)) else {
        return assert_eq!(answer, Err(Refusal::CornerCount));
    };
    let mut again = buffer.to_vec();
    let shape = Shape::new(kind, &corners);
    let shaped = shape.and_then(|shape| shape.write_wkt(&mut again, case.offset()));
    assert_eq!((shaped, again), (answer, written));
}

#[test]
fn every_stored_answer() {
    let samples = fs::read_to_string(format!("{FOLDER}stdin")).expect("the stored answers");
    let mut seen = BTreeMap::<char, usize>::new();
    for line in samples.lines().filter(|line| !line.starts_with('#')) {
        let (kind, hex) = line.split_at(1);
        let (kind, case) = (kind.chars().next().expect("a letter"), Case::of(hex));
        match kind {
            'P' | 'Q' | 'H' | 'V' => predicate_case(kind, &case),
            'M' | 'W' | 'T' | 'R' => text_case(kind, &case),
            'O' | 'X' | 'S' | 'L' => cell_case(kind, &case),
            'B' | 'K' => ends_case(kind, &case),
            'N' | 'D' | 'E' | 'F' | 'C' | 'Z' => record_case(kind, &case),
            'A' | 'Y' => floor_case(kind, &case),
            'm' | 'p' | 'v' => room_case(kind, &case),
            'x' | 'f' | 't' => traced_case(kind, &case),
            'G' => place_case(&case),
            'I' => outline_case(&case),
            'o' | 'c' => outlines_case(kind, &case),
            'J' => read_case(&case),
            'U' => write_case(&case),
            'r' | 'h' | 'n' | 'g' => region_case(kind, &case),
            _ => panic!("no such kind of line: {line}"),
        }
        *seen.entry(kind).or_default() += 1;
    }
    for (kind, count) in &seen {
        println!("{kind} {count:5} replayed through the wrappers");
    }
    assert_eq!(
        seen.len(),
        38,
        "a kind of line for each call of the library, one for the three of a floor in pieces and three for rooms"
    );
    // No line was passed over: the replay of the C interface has the same number.
    let total = format!("{} replayed, 0 differ\n", seen.values().sum::<usize>());
    let stored = fs::read_to_string(format!("{FOLDER}stdout")).expect("its count");
    assert_eq!(stored, total);
    print!("{total}");
}
