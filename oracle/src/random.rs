//! A small generator (splitmix64), so that a seed gives the same run everywhere.

pub struct Random(u64);

impl Random {
    pub fn new(seed: u64) -> Self {
        Random(seed)
    }

    pub fn next(&mut self) -> u64 {
        self.0 = self.0.wrapping_add(0x9E37_79B9_7F4A_7C15);
        let mut mixed = self.0;
        mixed = (mixed ^ (mixed >> 30)).wrapping_mul(0xBF58_476D_1CE4_E5B9);
        mixed = (mixed ^ (mixed >> 27)).wrapping_mul(0x94D0_49BB_1331_11EB);
        mixed ^ (mixed >> 31)
    }

    /// A number below `end`. The ends used are so small that the remainder's bias can't be seen.
    pub fn below(&mut self, end: usize) -> usize {
        (self.next() % end as u64) as usize
    }

    pub fn byte(&mut self) -> u8 {
        self.next() as u8
    }

    pub fn pick<T: Copy>(&mut self, from: &[T]) -> T {
        from[self.below(from.len())]
    }

    /// Nine cells of 0 to 3.
    pub fn cells(&mut self) -> [u8; 9] {
        std::array::from_fn(|_| self.below(4) as u8)
    }

    /// Nine cells of which at least one is above 3.
    pub fn cells_above_3(&mut self) -> [u8; 9] {
        let mut cells = self.cells();
        let one = self.below(9);
        for (place, cell) in cells.iter_mut().enumerate() {
            if place == one || self.below(3) == 0 {
                *cell = self.pick(&[4, 5, 6, 7, 8, 16, 127, 128, 252, 253, 254, 255]);
                if self.below(2) == 0 {
                    *cell = 4 + self.below(252) as u8;
                }
            }
        }
        cells
    }

    /// Nine bytes of any kind, as a refused call may find them.
    pub fn nine_bytes(&mut self) -> [u8; 9] {
        std::array::from_fn(|_| self.byte())
    }
}
