//! Request R-11's rule for converting a plan record into the other version, over document 01's for reading one.

use crate::rule_plan::{FORMS, Form, number, promised, record};
use crate::rule_star::{END_BYTES, TOO_MANY_ENDS};

/// "Any version 1 record can be rewritten as version 2 and pours the same; back again works exactly up to 32 ends."
/// Bytes after the record don't matter, and what it refuses is a record's own, 9 too; then "back above 32 is 5".
pub fn converted(bytes: &[u8]) -> Result<Vec<u8>, u32> {
    record(&[0; 9], bytes)?;
    let whole = promised(bytes)?;
    let [one, two] = &FORMS;
    let (from, to) = match whole[0] {
        1 => (one, two),
        _ => (two, one),
    };
    let rest = match whole[1] {
        1 => rewritten_node(&whole[2..], from, to)?,
        _ => whole[2..].to_vec(),
    };
    let length = (2 + rest.len()) as u16;
    let head = [to.version, whole[1]];
    Ok([&length.to_be_bytes()[..], &head, &rest].concat())
}

/// The positions and the ends as they stand, and between them the count in as many bytes as the version has.
fn rewritten_node(body: &[u8], from: &Form, to: &Form) -> Result<Vec<u8>, u32> {
    let (positions, rest) = body.split_at(4);
    let (count, ends) = rest.split_at(from.count_bytes);
    let count = number(count);
    if count > to.most_ends {
        return Err(TOO_MANY_ENDS);
    }
    assert_eq!(ends.len(), END_BYTES * count, "the record is accepted");
    let count = (count as u16).to_be_bytes();
    let count = &count[2 - to.count_bytes..];
    Ok([positions, count, ends].concat())
}

#[cfg(test)]
mod tests {
    use super::*;
    use crate::plan_pieces::{Version, ends, good_record_of, node_record_of};
    use crate::random::Random;
    use crate::rule_star::SINGLE_SIDE;

    #[test]
    fn by_hand() {
        let node = [0, 7, 1, 1, 2, 2, 0, 1, 0];
        let same = [0, 8, 2, 1, 2, 2, 0, 1, 0, 0];
        assert_eq!(converted(&node), Ok(same.to_vec()));
        assert_eq!(converted(&same), Ok(node.to_vec()));
        let edge = [0, 9, 1, 2, 0, 1, 0, 0, 2, 0, 0, 77];
        let same = [0, 9, 2, 2, 0, 1, 0, 0, 2, 0, 0];
        assert_eq!(converted(&edge), Ok(same.to_vec()));
        assert_eq!(converted(&same), Ok(edge[..11].to_vec()));
    }

    /// Up to 32 ends, of either version.
    #[test]
    fn there_and_back_and_poured_the_same() {
        let random = &mut Random::new(11);
        let mut accepted = 0;
        for _ in 0..4000 {
            let version = random.pick(&[Version::One, Version::Two]);
            let bytes = good_record_of(random, version);
            let cells = random.cells();
            let poured = record(&cells, &bytes);
            let other = converted(&bytes);
            match (poured, other) {
                (Err(word), other) => assert_eq!((word, other), (SINGLE_SIDE, Err(SINGLE_SIDE))),
                (Ok(_), Err(word)) => {
                    assert_eq!(word, TOO_MANY_ENDS);
                    assert!(bytes.len() > 10 + 32 * END_BYTES);
                }
                (Ok((_, after)), Ok(other)) => {
                    accepted += 1;
                    let used = other.len() as u32;
                    assert_eq!(record(&cells, &other), Ok((used, after)));
                    assert_eq!(converted(&other), Ok(bytes));
                }
            }
        }
        assert!(accepted > 2000);
    }

    #[test]
    fn back_above_32() {
        let random = &mut Random::new(3);
        for (count, version) in [(32, Version::Two), (33, Version::Two), (32, Version::One)] {
            // one end's copies have nothing to miss
            let one = ends(random, 1).repeat(count);
            let bytes = node_record_of(random, version, &one);
            assert_eq!(converted(&bytes).is_err(), count == 33);
        }
    }
}
