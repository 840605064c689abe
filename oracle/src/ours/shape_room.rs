//! What a caller lends for a shape that is read from a text: three numbers for the answer, and room for 64 corners.

#[derive(Clone, Debug, PartialEq, Eq)]
#[repr(C)]
pub struct ShapeRoom {
    /// The kind, the count of corners, the place of refusal 19.
    pub answer: [u64; 3],
    pub xy: [i32; 128],
}

const ANSWER_BYTES: usize = 24;

impl ShapeRoom {
    /// The same number everywhere.
    pub fn filled(number: i32) -> Self {
        ShapeRoom {
            answer: [number as u64; 3],
            xy: [number; 128],
        }
    }

    pub fn to_le_bytes(&self) -> Vec<u8> {
        joined(
            self.answer.map(u64::to_le_bytes),
            self.xy.map(i32::to_le_bytes),
        )
    }

    pub fn to_be_bytes(&self) -> Vec<u8> {
        joined(
            self.answer.map(u64::to_be_bytes),
            self.xy.map(i32::to_be_bytes),
        )
    }

    pub fn from_le_bytes(bytes: &[u8]) -> Self {
        let (answer, xy) = bytes.split_at(ANSWER_BYTES);
        let (answer, xy) = (answer.as_chunks::<8>().0, xy.as_chunks::<4>().0);
        ShapeRoom {
            answer: std::array::from_fn(|k| u64::from_le_bytes(answer[k])),
            xy: std::array::from_fn(|k| i32::from_le_bytes(xy[k])),
        }
    }
}

fn joined(answer: [[u8; 8]; 3], xy: [[u8; 4]; 128]) -> Vec<u8> {
    [answer.as_flattened(), xy.as_flattened()].concat()
}
