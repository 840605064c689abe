//! What a caller lends for a floor: two numbers for the answer and nine cells. For a floor that comes in pieces there
//! follows each piece: its count of bytes, in whose place the push leaves its word; then the word of asking for the
//! answer behind it, and what that wrote.

use std::ops::Range;

/// What the answer's numbers are before the call: none that a call gives.
const HELD: u64 = 0x0909_0909_0909_0909;

pub const ROOM_BYTES: usize = 25;
const PIECE_ROOM: usize = 8;
const PIECE_BYTES: usize = PIECE_ROOM + ROOM_BYTES;

#[derive(Clone, Debug, PartialEq, Eq)]
#[repr(C)]
pub struct FloorRoom {
    /// The bytes used, the records accepted.
    pub answer: [u64; 2],
    pub cells: [u8; 9],
}

impl FloorRoom {
    /// Before a call on these cells.
    pub fn on(cells: [u8; 9]) -> Self {
        FloorRoom {
            answer: [HELD; 2],
            cells,
        }
    }

    pub fn to_le_bytes(&self) -> Vec<u8> {
        let answer = self.answer.map(u64::to_le_bytes);
        [answer.as_flattened(), &self.cells].concat()
    }

    /// The cells first, as a line of the sample has them.
    pub fn to_be_bytes(&self) -> Vec<u8> {
        let answer = self.answer.map(u64::to_be_bytes);
        [&self.cells, answer.as_flattened()].concat()
    }

    /// What follows the room isn't looked at.
    pub fn from_le_bytes(bytes: &[u8]) -> Self {
        let (answer, cells) = bytes[..ROOM_BYTES].split_at(16);
        let answer = answer.as_chunks::<8>().0;
        FloorRoom {
            answer: [answer[0], answer[1]].map(u64::from_le_bytes),
            cells: cells.try_into().expect("nine cells"),
        }
    }
}

/// A piece before it is pushed, or after.
#[derive(Clone, Debug, PartialEq, Eq)]
pub struct Piece {
    /// Its count of bytes, or the push's word.
    pub pushed: u32,
    pub word: u32,
    pub room: FloorRoom,
}

impl Piece {
    fn of_count(count: usize) -> Self {
        Piece {
            pushed: count as u32,
            word: HELD as u32,
            room: FloorRoom::on([HELD as u8; 9]),
        }
    }

    pub fn to_le_bytes(&self) -> Vec<u8> {
        let words = [self.pushed, self.word].map(u32::to_le_bytes);
        [words.as_flattened(), &self.room.to_le_bytes()].concat()
    }

    pub fn from_le_bytes(bytes: &[u8]) -> Self {
        let (words, room) = bytes.split_at(PIECE_ROOM);
        let words = words.as_chunks::<4>().0;
        Piece {
            pushed: u32::from_le_bytes(words[0]),
            word: u32::from_le_bytes(words[1]),
            room: FloorRoom::from_le_bytes(room),
        }
    }
}

/// A room, and pieces of these counts behind it.
pub fn with_pieces(cells: [u8; 9], counts: &[usize]) -> Vec<u8> {
    let pieces = counts
        .iter()
        .flat_map(|count| Piece::of_count(*count).to_le_bytes());
    let room = FloorRoom::on(cells).to_le_bytes();
    room.into_iter().chain(pieces).collect()
}

/// Where the pieces behind a room stand.
pub fn pieces_at(out: &[u8]) -> impl Iterator<Item = Range<usize>> + use<> {
    let starts = (ROOM_BYTES..out.len()).step_by(PIECE_BYTES);
    starts.map(|start| start..start + PIECE_BYTES)
}

/// The counts of the pieces behind a room.
pub fn counts(out: &[u8]) -> Vec<usize> {
    pieces_at(out)
        .map(|place| Piece::from_le_bytes(&out[place]).pushed as usize)
        .collect()
}
