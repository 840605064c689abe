//! The four dimensions and the three positions, under geo's names, and the numbers that the library has for them.

/// The dimension of what two parts share, in rising order. geo's `dimensions::Dimensions`.
#[derive(Clone, Copy, Debug, PartialEq, Eq, PartialOrd, Ord, Hash)]
pub enum Dimensions {
    /// Nothing: the letter `F`.
    Empty,
    /// Points: `0`.
    ZeroDimensional,
    /// Lines: `1`.
    OneDimensional,
    /// Areas: `2`.
    TwoDimensional,
}

impl Dimensions {
    /// 0 to 3 for F, 0, 1, 2.
    #[must_use]
    pub const fn number(self) -> u8 {
        self as u8
    }

    /// The dimension that a number stands for; a larger one than 3 is read as 2, as the library reads it.
    #[must_use]
    pub const fn of_number(number: u8) -> Dimensions {
        match number {
            0 => Dimensions::Empty,
            1 => Dimensions::ZeroDimensional,
            2 => Dimensions::OneDimensional,
            _ => Dimensions::TwoDimensional,
        }
    }
}

/// Where a point lies against one geometry. geo's `coordinate_position::CoordPos`, its cases in geo's order.
#[derive(Clone, Copy, Debug, PartialEq, Eq, Hash)]
pub enum CoordPos {
    /// On the boundary: `B`.
    OnBoundary,
    /// In the interior: `I`.
    Inside,
    /// In the exterior: `E`.
    Outside,
}

impl CoordPos {
    /// The row or column of a matrix: 0, 1, 2 for Inside, OnBoundary, Outside.
    pub(crate) const fn row(self) -> usize {
        match self {
            CoordPos::Inside => 0,
            CoordPos::OnBoundary => 1,
            CoordPos::Outside => 2,
        }
    }

    /// Document 01's code of a position that may be none: 0 none, 1 I, 2 B, 3 E.
    #[must_use]
    pub const fn code(position: Option<CoordPos>) -> u8 {
        match position {
            None => 0,
            Some(known) => known.row() as u8 + 1,
        }
    }

    /// What a code stands for, or nothing for a code above 3.
    #[must_use]
    pub const fn of_code(code: u8) -> Option<Option<CoordPos>> {
        match code {
            0 => Some(None),
            1 => Some(Some(CoordPos::Inside)),
            2 => Some(Some(CoordPos::OnBoundary)),
            3 => Some(Some(CoordPos::Outside)),
            _ => None,
        }
    }
}
