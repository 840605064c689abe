//! What a caller lends for a traced matrix: two numbers for a floor's answer, ten numbers and nine cells.

/// What the answer's numbers are before the call: none that a call gives.
const HELD: u64 = 0x0909_0909_0909_0909;

#[derive(Clone, Debug, PartialEq, Eq)]
#[repr(C)]
pub struct TracedRoom {
    /// Of a floor the bytes used and the records accepted; no other call writes them.
    pub answer: [u64; 2],
    /// One for each cell, then the count.
    pub numbers: [u32; 10],
    pub cells: [u8; 9],
}

impl TracedRoom {
    /// Before a call on these.
    pub fn on(cells: [u8; 9], numbers: [u32; 10]) -> Self {
        TracedRoom {
            answer: [HELD; 2],
            numbers,
            cells,
        }
    }

    pub fn to_le_bytes(&self) -> Vec<u8> {
        let answer = self.answer.map(u64::to_le_bytes);
        let numbers = self.numbers.map(u32::to_le_bytes);
        [
            answer.as_flattened(),
            numbers.as_flattened(),
            &self.cells[..],
        ]
        .concat()
    }

    pub fn from_le_bytes(bytes: &[u8]) -> Self {
        let answer = bytes[..16].as_chunks::<8>().0;
        let numbers = bytes[16..56].as_chunks::<4>().0;
        TracedRoom {
            answer: [answer[0], answer[1]].map(u64::from_le_bytes),
            numbers: std::array::from_fn(|k| u32::from_le_bytes(numbers[k])),
            cells: bytes[56..65].try_into().expect("nine cells"),
        }
    }

    /// The numbers as a line of the sample has them.
    pub fn numbers_high_first(&self) -> Vec<u8> {
        self.numbers
            .iter()
            .flat_map(|number| number.to_be_bytes())
            .collect()
    }
}
