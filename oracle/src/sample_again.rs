//! Stored calls on ends, records and floors asked again, after a change of the rules: the calls stay as they are, and where
//! the answer is another now the line gets it. How calls are drawn has changed since some of the lines were written, so that
//! they can't be drawn again.

use crate::ours::plans::{PlanCall, PlanOp};
use crate::sample_plans;
use std::collections::BTreeMap;

/// What stands before the bytes given.
const HEAD: usize = 24;

/// The call of a line, if it is one of those.
fn call(line: &str) -> Option<PlanCall> {
    let letter = line.chars().next()?;
    if !"BKNAY".contains(letter) {
        return None;
    }
    let digits = line[1..].as_bytes().chunks_exact(2);
    let byte = |two| u8::from_str_radix(str::from_utf8(two).expect("digits"), 16).expect("hex");
    let mut bytes: Vec<u8> = digits.map(byte).collect();
    bytes.resize(bytes.len().max(HEAD), 0);
    let number = |at: usize| u32::from_be_bytes(bytes[at..at + 4].try_into().expect("four"));
    let count = usize::from(bytes[22]) * 256 + usize::from(bytes[23]);
    let (a, b, first) = (number(13), number(17), usize::from(bytes[21]));
    let cells = bytes[..9].try_into().expect("nine");
    bytes.resize(bytes.len().max(HEAD + count), 0);
    let given = bytes[HEAD..HEAD + count].to_vec();
    Some(match letter {
        'B' => PlanCall::bundle(given),
        'K' => PlanCall::star(given, a, b),
        'N' => PlanCall::on_cells(PlanOp::Record, cells, given),
        'A' => PlanCall::floor(PlanOp::Floor, cells, given),
        _ => PlanCall::pieces(cells, &[first, count - first], given),
    })
}

/// Prints the file's lines with the answers of now, and tells how many of each letter are others.
pub fn main(path: &str) {
    let file = std::fs::read_to_string(path).expect("the stored answers");
    let mut lines = String::new();
    let mut changed: BTreeMap<char, usize> = BTreeMap::new();
    for line in file.lines() {
        let mut now = String::new();
        match call(line) {
            Some(call) => {
                sample_plans::write_lines(&mut now, &[call]);
            }
            None => now = format!("{line}\n"),
        }
        if now.trim_end() != line {
            *changed
                .entry(line.chars().next().expect("a letter"))
                .or_default() += 1;
        }
        lines.push_str(&now);
    }
    eprintln!("answers that are others now: {changed:?}");
    print!("{lines}");
}
