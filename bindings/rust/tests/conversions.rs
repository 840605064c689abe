//! Request R-11: records of both versions, bytes written by hand, and there and back for every count of ends.

use misonkandi::{IntersectionMatrix, MOST_CONVERTED_BYTES, Refusal, convert_record};

/// Ends around the node, so that no two of the first 32 have one direction: areas of A and lines of B by turns.
fn ends(count: usize) -> Vec<u8> {
    let end = |k: usize| {
        let dx = (1 + 7 * k % 32) as i32 * if k.is_multiple_of(3) { -1 } else { 1 };
        let dy = (32 - 7 * k % 32) as i32 * if k.is_multiple_of(5) { -1 } else { 1 };
        let label: [u8; 7] = if k.is_multiple_of(2) {
            [1, 2, 1, 3, 0, 0, 0]
        } else {
            [0, 0, 0, 0, 1, 0, 0]
        };
        [&dx.to_be_bytes()[..], &dy.to_be_bytes(), &label].concat()
    };
    (0..count).flat_map(end).collect()
}

/// A node by its bytes, as the request writes it down: the count in one byte or in two.
fn node(version: u8, count: usize) -> Vec<u8> {
    let number = (count as u16).to_be_bytes();
    let number = if version == 1 {
        &number[1..]
    } else {
        &number[..]
    };
    let rest = [&[version, 1, 2, 3, 1, 0][..], number, &ends(count)].concat();
    [&(rest.len() as u16).to_be_bytes()[..], &rest].concat()
}

fn edge(version: u8) -> Vec<u8> {
    vec![0, 9, version, 2, 1, 2, 1, 3, 2, 3, 1]
}

fn poured(record: &[u8]) -> (Result<usize, Refusal>, [u8; 9]) {
    let mut matrix = IntersectionMatrix::empty_disjoint();
    (matrix.pour_record(record), matrix.cells())
}

/// One record converted, with bytes behind it, into the middle of a buffer.
fn converted(record: &[u8]) -> Result<Vec<u8>, Refusal> {
    let bytes = [record, &[0xAA; 7]].concat();
    let mut buffer = vec![0xEE; MOST_CONVERTED_BYTES + 9];
    let used = convert_record(&bytes, &mut buffer, 5)?;
    assert!(
        buffer[..5]
            .iter()
            .chain(&buffer[5 + used..])
            .all(|&byte| byte == 0xEE)
    );
    Ok(buffer[5..5 + used].to_vec())
}

#[test]
fn there_and_back_for_every_count_of_version_1() {
    for count in 0..=32 {
        let (one, two) = (node(1, count), node(2, count));
        assert_eq!(converted(&one), Ok(two.clone()));
        assert_eq!(converted(&two), Ok(one.clone()));
        let (answer, cells) = poured(&one);
        assert_eq!(answer, Ok(9 + 15 * count));
        assert_eq!(poured(&two), (Ok(10 + 15 * count), cells));
    }
    assert_eq!(converted(&edge(1)), Ok(edge(2)));
    assert_eq!(converted(&edge(2)), Ok(edge(1)));
    assert_eq!(poured(&edge(1)), poured(&edge(2)));
}

/// Accepted, and 5 on the way back: no count is cut to its low byte, so 256 and 288 aren't 0 and 32.
#[test]
fn back_above_32_is_5() {
    for count in [33, 34, 64, 255, 256, 257, 288, 511, 512, 544, 599, 600] {
        let two = node(2, count);
        assert_eq!(poured(&two).0, Ok(10 + 15 * count));
        assert_eq!(converted(&two), Err(Refusal::Ends));
        // 5 comes before 12.
        assert_eq!(convert_record(&two, &mut [], 1), Err(Refusal::Ends));
    }
    for (version, count) in [(1, 33), (2, 601)] {
        assert_eq!(poured(&node(version, count)).0, Err(Refusal::Ends));
        assert_eq!(converted(&node(version, count)), Err(Refusal::Ends));
    }
}

/// A record that is refused when it is poured is refused for that, with the last check, 9, too; then the room is asked.
#[test]
fn refused_as_it_is_poured() {
    let damages: [(usize, u8, Refusal); 10] = [
        (0, 255, Refusal::Short),
        (1, 1, Refusal::Length),
        (2, 3, Refusal::Version),
        (3, 3, Refusal::Kind),
        (1, 37, Refusal::Length),
        (9, 3, Refusal::Length),
        (4, 0, Refusal::PositionCode),
        (17, 0, Refusal::Direction),
        (18, 2, Refusal::LabelKind),
        (20, 0, Refusal::MissingLeft),
    ];
    let east = [0, 0, 0, 2, 0, 0, 0, 0, 1, 2, 1, 3, 0, 0, 0];
    let north = [0, 0, 0, 0, 0, 0, 0, 2, 1, 2, 1, 3, 0, 0, 0];
    let good = [&[0, 38, 2, 1, 2, 2, 2, 2, 0, 2][..], &north, &east].concat();
    assert_eq!(poured(&good).0, Ok(40));
    for (place, byte, refusal) in damages {
        let mut record = good.clone();
        record[place] = byte;
        assert_eq!(poured(&record).0, Err(refusal));
        let mut kept = [7; 60];
        assert_eq!(convert_record(&record, &mut kept, 0), Err(refusal));
        assert_eq!(convert_record(&record, &mut [], 1), Err(refusal));
        assert_eq!(kept, [7; 60]);
    }
    assert_eq!(
        convert_record(&good, &mut [7; 60], 60),
        Err(Refusal::NoRoom)
    );
    assert_eq!(convert_record(&[], &mut [], 0), Err(Refusal::Short));
}

/// Into a buffer of every small size at every offset near it, and far from it.
#[test]
fn rooms() {
    let records = [
        (node(1, 1), node(2, 1)),
        (node(2, 0), node(1, 0)),
        (edge(1), edge(2)),
    ];
    for (record, other) in records {
        for room in 0..=30 {
            let far = [
                usize::MAX,
                usize::MAX - 9,
                usize::MAX - 24,
                1 << 31,
                usize::MAX / 2 + 1,
            ];
            for offset in (0..=room + 1).chain(far) {
                let end = offset.checked_add(other.len()).filter(|&end| end <= room);
                let mut due = vec![7; room];
                if let Some(end) = end {
                    due[offset..end].copy_from_slice(&other);
                }
                let mut buffer = vec![7; room];
                let answer = convert_record(&record, &mut buffer, offset);
                assert_eq!(answer, end.map(|_| other.len()).ok_or(Refusal::NoRoom));
                assert_eq!(buffer, due);
            }
        }
    }
}
