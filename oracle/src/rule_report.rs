//! Document 01's rules for stored reports, and request R-3's for their short form.

use crate::rule::{self, refusal};
use crate::rule_plan::{BAD_VERSION, promised};
use crate::rule_star::WRONG_LENGTH;

pub const NO_ROOM: u32 = refusal(12);
pub const TOP_BITS: u32 = refusal(14);

pub const LONG_BYTES: usize = 12;
pub const SHORT_BYTES: usize = 6;

/// "A stored report is twelve bytes: 00 0A, version 01, nine letters of the matrix."
pub fn long(cells: &[u8; 9]) -> [u8; LONG_BYTES] {
    let mut report = *b"\x00\x0A\x01.........";
    report[3..].copy_from_slice(&rule::text(cells));
    report
}

/// "A new stored report is six bytes: 00 04, version 02, three bytes with each cell in two bits (F is 0, then 1, 2, 3 for
/// 0, 1, 2), II in the highest of the low 18 bits, the top six bits zero."
pub fn short(cells: &[u8; 9]) -> [u8; SHORT_BYTES] {
    let number = rule::read(cells)
        .iter()
        .fold(0, |number, cell| 4 * number + u32::from(*cell));
    let [_, high, middle, low] = number.to_be_bytes();
    [0x00, 0x04, 0x02, high, middle, low]
}

/// The cells of three bytes, "a new number 14 when a top bit is set".
fn unpacked(three: &[u8]) -> Result<[u8; 9], u32> {
    let mut number = three
        .iter()
        .fold(0, |number, byte| 256 * number + u32::from(*byte));
    if number >= 1 << 18 {
        return Err(TOP_BITS);
    }
    let mut cells = [0; 9];
    for cell in cells.iter_mut().rev() {
        *cell = (number % 4) as u8;
        number /= 4;
    }
    Ok(cells)
}

/// "Refusals: order is 1; length neither 4 nor 10 is 4; version not 1 or 2 is 2; length and version disagreeing is 4; then
/// 11, or for version 2 a new number 14 when a top bit is set."
pub fn read(bytes: &[u8]) -> Result<(u32, [u8; 9]), u32> {
    let (version, body) = match promised(bytes)? {
        [version, body @ ..] if [3, 9].contains(&body.len()) => (*version, body),
        _ => return Err(WRONG_LENGTH),
    };
    match (version, body.len()) {
        (1, 9) => Ok((LONG_BYTES as u32, rule::letters(body)?)),
        (2, 3) => Ok((SHORT_BYTES as u32, unpacked(body)?)),
        (1 | 2, _) => Err(WRONG_LENGTH),
        _ => Err(BAD_VERSION),
    }
}

/// The other form of a report.
pub fn converted(bytes: &[u8]) -> Result<Vec<u8>, u32> {
    let (used, cells) = read(bytes)?;
    Ok(match used as usize {
        LONG_BYTES => short(&cells).to_vec(),
        _ => long(&cells).to_vec(),
    })
}

/// The bytes written, and the buffer with a report from the offset on; "offset beyond the buffer, or fewer than 12 bytes
/// from it"; "For the short form 12 reads six bytes."
pub fn written(buffer: &[u8], report: &[u8], offset: u64) -> Result<(u32, Vec<u8>), u32> {
    let mut buffer = buffer.to_vec();
    let room = usize::try_from(offset)
        .ok()
        .and_then(|offset| buffer.get_mut(offset..))
        .and_then(|part| part.get_mut(..report.len()))
        .ok_or(NO_ROOM)?;
    room.copy_from_slice(report);
    Ok((report.len() as u32, buffer))
}

#[cfg(test)]
mod tests {
    use super::*;
    use crate::pieces::{MATRICES, matrix_by_number};
    use crate::rule::BAD_BYTE;
    use crate::rule_plan::TOO_FEW_BYTES;

    #[test]
    fn a_short_report_byte_by_byte() {
        let cells = rule::letters(b"212101212").expect("nine letters");
        assert_eq!(short(&cells), [0, 4, 2, 0b11, 0b1011_1001, 0b1011_1011]);
        let start = rule::letters(b"2FFFFFFFF").expect("nine letters");
        assert_eq!(short(&start), [0, 4, 2, 3, 0, 0]);
        let end = rule::letters(b"FFFFFFFF2").expect("nine letters");
        assert_eq!(short(&end), [0, 4, 2, 0, 0, 3]);
    }

    /// "either way round gives the first bytes again, for every accepted report"
    #[test]
    fn there_and_back_for_every_matrix() {
        for cells in (0..MATRICES).map(matrix_by_number) {
            let (long, short) = (long(&cells), short(&cells));
            assert_eq!(read(&long), Ok((12, cells)));
            assert_eq!(read(&short), Ok((6, cells)));
            assert_eq!(converted(&long), Ok(short.to_vec()));
            assert_eq!(converted(&short), Ok(long.to_vec()));
        }
    }

    #[test]
    fn refusals_stand_in_the_request_s_order() {
        let word = |bytes: &[u8]| read(bytes).expect_err("refused");
        assert_eq!(word(&[0]), TOO_FEW_BYTES);
        assert_eq!(word(&[0, 5, 9, 9, 9, 9]), TOO_FEW_BYTES);
        assert_eq!(word(&[0, 5, 9, 9, 9, 9, 9]), WRONG_LENGTH);
        assert_eq!(word(&[0, 4, 9, 9, 9, 9]), BAD_VERSION);
        assert_eq!(word(&[0, 4, 1, 9, 9, 9]), WRONG_LENGTH);
        assert_eq!(word(&[0, 4, 2, 4, 9, 9]), TOP_BITS);
        assert_eq!(word(b"\x00\x0A\x03FFFFFFFFX"), BAD_VERSION);
        assert_eq!(word(b"\x00\x0A\x02FFFFFFFFX"), WRONG_LENGTH);
        assert_eq!(word(b"\x00\x0A\x01FFFFFFFFX"), BAD_BYTE + 8);
        // 12 comes last
        assert_eq!(converted(&[0, 4, 2, 4, 9, 9]), Err(TOP_BITS));
        assert_eq!(written(&[7; 11], &long(&[0; 9]), 0), Err(NO_ROOM));
        assert_eq!(written(&[7; 6], &short(&[0; 9]), 1), Err(NO_ROOM));
        assert_eq!(
            written(&[7; 6], &short(&[0; 9]), 0).map(|(word, _)| word),
            Ok(6)
        );
    }
}
