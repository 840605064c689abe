//! A floor asked in this process: in one call, a call a record, in pieces. far/floor_calls.h does the same elsewhere.

use super::floor_room::{FloorRoom, Piece, ROOM_BYTES, pieces_at};
use super::linked::{self, Pieces};
use super::plans::PlanOp;

const GUARD: [u8; 16] = [0x5A; 16];

/// The state that is lent, between bytes that no call may touch.
#[repr(C)]
struct Kept {
    before: [u8; 16],
    state: Pieces,
    after: [u8; 16],
}

/// The word, and whether all that no call may change is as it was.
pub(super) fn answer(op: PlanOp, out: &mut [u8], bytes: &[u8]) -> (u32, bool) {
    match op {
        PlanOp::Floor => in_room(out, |room| {
            linked::floor(&mut room.cells, bytes, &mut room.answer)
        }),
        PlanOp::OneByOne => in_room(out, |room| fed(room, bytes)),
        _ => in_pieces(out, bytes),
    }
}

/// Numbers must lie at a multiple of their size: the room is copied to where they do, between two others that may not
/// change, and back.
fn in_room(out: &mut [u8], ask: impl FnOnce(&mut FloorRoom) -> u32) -> (u32, bool) {
    let guard = FloorRoom::on([GUARD[0]; 9]);
    let mut rooms = [guard.clone(), FloorRoom::from_le_bytes(out), guard.clone()];
    let word = ask(&mut rooms[1]);
    out[..ROOM_BYTES].copy_from_slice(&rooms[1].to_le_bytes());
    (word, rooms[0] == guard && rooms[2] == guard)
}

/// As a caller feeds them without the one call.
fn fed(room: &mut FloorRoom, bytes: &[u8]) -> u32 {
    room.answer = [0; 2];
    let mut at = 0;
    while at < bytes.len() {
        let word = linked::record(&mut room.cells, &bytes[at..]);
        if word >= linked::REFUSED {
            return word;
        }
        at += word as usize;
        room.answer = [at as u64, room.answer[1] + 1];
    }
    0
}

/// The state may not change while the answer is asked for.
fn finish(kept: &Kept, out: &mut [u8]) -> (u32, bool) {
    let state = kept.state;
    let (word, left) = in_room(out, |room| {
        linked::finish(&kept.state, &mut room.cells, &mut room.answer)
    });
    (word, left && kept.state == state)
}

/// Each piece lies elsewhere, and only while it is pushed.
fn in_pieces(out: &mut [u8], bytes: &[u8]) -> (u32, bool) {
    let mut kept = Kept {
        before: GUARD,
        state: Pieces::BLANK,
        after: GUARD,
    };
    linked::start(&mut kept.state, &FloorRoom::from_le_bytes(out).cells);
    let (mut at, mut all_left) = (0, true);
    for place in pieces_at(out) {
        let mut piece = Piece::from_le_bytes(&out[place.clone()]);
        let end = at + piece.pushed as usize;
        piece.pushed = linked::push(&mut kept.state, &bytes[at..end].to_vec());
        at = end;
        let mut room = piece.room.to_le_bytes();
        let (word, left) = finish(&kept, &mut room);
        (piece.word, piece.room) = (word, FloorRoom::from_le_bytes(&room));
        out[place].copy_from_slice(&piece.to_le_bytes());
        all_left &= left;
    }
    let (word, left) = finish(&kept, out);
    let guards = kept.before == GUARD && kept.after == GUARD;
    (word, all_left && left && guards)
}
