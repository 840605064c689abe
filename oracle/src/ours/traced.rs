//! A traced matrix asked in this process. far/traced_calls.h does the same elsewhere.

use super::linked;
use super::plans::PlanOp;
use super::traced_room::TracedRoom;

/// The word, and whether all that no call may change is as it was. Numbers must lie at a multiple of their size: the
/// room is copied to where they do, between two others that may not change, and back.
pub(super) fn answer(op: PlanOp, out: &mut [u8], bytes: &[u8]) -> (u32, bool) {
    let guard = TracedRoom::on([0x5A; 9], [0x5A5A_5A5A; 10]);
    let mut rooms = [guard.clone(), TracedRoom::from_le_bytes(out), guard.clone()];
    let TracedRoom {
        answer,
        numbers,
        cells,
    } = &mut rooms[1];
    let word = match op {
        PlanOp::TracedRecord => linked::traced_record(cells, numbers, bytes),
        PlanOp::TracedFloor => linked::traced_floor(cells, numbers, bytes, answer),
        _ => {
            linked::traced_transpose(cells, numbers);
            0
        }
    };
    out.copy_from_slice(&rooms[1].to_le_bytes());
    (word, rooms[0] == guard && rooms[2] == guard)
}
