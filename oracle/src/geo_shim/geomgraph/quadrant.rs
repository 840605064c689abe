//! Shim: the four quadrants in document 01's order.

#[derive(Clone, Copy, Debug, PartialEq, Eq, PartialOrd, Ord)]
pub(crate) enum Quadrant {
    Zero,
    One,
    Two,
    Three,
}

impl Quadrant {
    /// "0 for dx ≥ 0, dy ≥ 0; 1 for dx < 0, dy ≥ 0; 2 for both < 0; 3 for dx ≥ 0, dy < 0."
    pub fn new(dx: i32, dy: i32) -> Self {
        match (dx >= 0, dy >= 0) {
            (true, true) => Quadrant::Zero,
            (false, true) => Quadrant::One,
            (false, false) => Quadrant::Two,
            (true, false) => Quadrant::Three,
        }
    }
}
