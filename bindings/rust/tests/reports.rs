//! Request R-3: reports of both forms, bytes written by hand, and every matrix there and back.

use misonkandi::{IntersectionMatrix, REPORT_BYTES, Refusal, SHORT_REPORT_BYTES, convert_report};

fn matrix(letters: &str) -> IntersectionMatrix {
    letters.parse().expect("nine letters")
}

#[test]
fn a_short_report_byte_by_byte() {
    let reports = [
        ("FFFFFFFFF", [0, 4, 2, 0, 0, 0]),
        ("FFFFFFFF2", [0, 4, 2, 0, 0, 0b0000_0011]),
        ("2FFFFFFFF", [0, 4, 2, 0b0000_0011, 0, 0]),
        ("F012FFFFF", [0, 4, 2, 0, 0b0110_1100, 0]),
        ("FFFFF0120", [0, 4, 2, 0, 0, 0b0110_1101]),
        (
            "212101212",
            [0, 4, 2, 0b0000_0011, 0b1011_1001, 0b1011_1011],
        ),
        ("222222222", [0, 4, 2, 3, 255, 255]),
    ];
    for (letters, bytes) in reports {
        let stored = matrix(letters);
        assert_eq!(stored.short_report(), bytes);
        assert_eq!(IntersectionMatrix::read_report(&bytes), Ok((stored, 6)));
    }
}

/// Over all 262,144 matrices, whatever follows the report.
#[test]
fn every_matrix_there_and_back() {
    for number in 0..1u32 << 18 {
        let cells = std::array::from_fn(|at| (number >> (2 * at) & 3) as u8);
        let stored = IntersectionMatrix::from_cells(cells);
        let (long, short) = (stored.report(), stored.short_report());
        assert_eq!(IntersectionMatrix::read_report(&short), Ok((stored, 6)));

        let mut bytes = [number as u8; 2 * REPORT_BYTES];
        bytes[..REPORT_BYTES].copy_from_slice(&long);
        let mut to_short = [7; SHORT_REPORT_BYTES];
        assert_eq!(convert_report(&bytes, &mut to_short, 0), Ok(6));
        assert_eq!(to_short, short);

        bytes[..SHORT_REPORT_BYTES].copy_from_slice(&short);
        let mut to_long = [7; REPORT_BYTES];
        assert_eq!(convert_report(&bytes, &mut to_long, 0), Ok(12));
        assert_eq!(to_long, long);
    }
}

#[test]
fn refusals_and_their_order() {
    let refused: [(&[u8], Refusal); 12] = [
        (b"\x00", Refusal::Short),
        (b"\x00\x05\x02\x00\x00\x00", Refusal::Short),
        (b"\x00\x03\x03\xff\xff", Refusal::Length),
        (b"\x00\x05\x03\xff\xff\xff\xff", Refusal::Length),
        (b"\x00\x04\x00\xff\xff\xff", Refusal::Version),
        (b"\x00\x04\x03\xff\xff\xff", Refusal::Version),
        (b"\x00\x04\x01\xff\xff\xff", Refusal::Length),
        (b"\x00\x04\x02\x04\x00\x00", Refusal::TopBits),
        (b"\x00\x04\x02\x80\x00\x00", Refusal::TopBits),
        (b"\x00\x0a\x03X12101212", Refusal::Version),
        (b"\x00\x0a\x02X12101212", Refusal::Length),
        (b"\x00\x0a\x01212101X1X", Refusal::BadByte(6)),
    ];
    for (bytes, refusal) in refused {
        assert_eq!(IntersectionMatrix::read_report(bytes), Err(refusal));
        // The room is looked at last.
        assert_eq!(convert_report(bytes, &mut [], 1), Err(refusal));
        let mut kept = [7; 20];
        assert_eq!(convert_report(bytes, &mut kept, 0), Err(refusal));
        assert_eq!(kept, [7; 20]);
    }
    assert_eq!(Refusal::TopBits.number(), 14);
    assert_eq!(Refusal::TopBits.place(), None);
}

/// One form written and converted into a buffer of every small size at every offset near it, and far from it.
fn rooms(report: &[u8], other: &[u8], write: impl Fn(&mut [u8], usize) -> Result<usize, Refusal>) {
    for room in 0..=26 {
        let far = [
            usize::MAX,
            usize::MAX - 5,
            usize::MAX - 11,
            1 << 31,
            usize::MAX / 2 + 1,
        ];
        for offset in (0..=room + 1).chain(far) {
            let mut due = vec![7; room];
            let end = offset.checked_add(report.len()).filter(|&end| end <= room);
            if let Some(end) = end {
                due[offset..end].copy_from_slice(report);
            }
            let answer = end.map(|_| report.len()).ok_or(Refusal::NoRoom);
            let mut buffer = vec![7; room];
            assert_eq!(write(&mut buffer, offset), answer);
            assert_eq!(buffer, due);
            buffer.fill(7);
            assert_eq!(convert_report(other, &mut buffer, offset), answer);
            assert_eq!(buffer, due);
        }
    }
}

#[test]
fn reports_and_their_rooms() {
    let stored = matrix("210F21012");
    let (long, short) = (stored.report(), stored.short_report());
    rooms(&long, &short, |buffer, offset| {
        stored.write_report(buffer, offset)
    });
    rooms(&short, &long, |buffer, offset| {
        stored.write_short_report(buffer, offset)
    });
}
