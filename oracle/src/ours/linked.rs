//! The library in this process, called by the bindings' own declarations of its C interface.

use super::{Call, GUARD, Op, Raw, guarded};

#[path = "../../../bindings/rust/src/c.rs"]
mod c;
pub use c::*;

/// Makes one call on bytes that have guards around them.
pub(super) fn answer(call: &Call) -> Raw {
    let mut lent = guarded(&call.cells);
    let mut text = call.text;
    let cells: &mut [u8; 9] = (&mut lent[GUARD..GUARD + 9])
        .try_into()
        .expect("nine bytes between the guards");
    let word = match call.op {
        Op::Predicates => predicates(cells),
        Op::Predicate => predicate(cells, call.a),
        Op::Matches => matches(cells, &text[..call.count]),
        Op::FromText => from_text(cells, &text[..call.count]),
        Op::Raise => raise_from_text(cells, &text[..call.count]),
        Op::ToText => {
            let out: &mut [u8; 9] = (&mut text[..9]).try_into().expect("nine bytes of text");
            to_text(cells, out);
            0
        }
        Op::Set => set(cells, call.a, call.b, call.dimension),
        Op::SetAtLeast => set_at_least(cells, call.a, call.b, call.dimension),
        Op::Transpose => {
            transpose(cells);
            0
        }
        Op::Verdict => verdict(cells, call.a),
        Op::VerdictPattern => verdict_pattern(cells, &text[..call.count]),
        Op::PredicateNamed => predicate_named(&text[..call.count]),
        Op::Region => region(cells),
        Op::RegionNamed => region_named(&text[..call.count]),
    };
    Raw { word, lent, text }
}
