//! Up to 64 corners, as an outline and a shape hold them.

use crate::refusal::Refusal;

/// The most corners that an outline or a shape may have.
pub const MOST_CORNERS: usize = 64;

/// The numbers of as many corners.
pub(crate) const MOST_NUMBERS: usize = 2 * MOST_CORNERS;

/// Corners in their order. Two are equal if they have the same corners.
#[derive(Clone, PartialEq, Eq, Hash)]
pub(crate) struct Corners {
    /// x and y of each corner in turn. Those past the count are 0.
    xy: [i32; MOST_NUMBERS],
    count: usize,
}

impl Corners {
    /// Nothing is cut to fit: more than 64 corners are refusal 16, the number that the library looks at first.
    pub(crate) fn new(corners: &[(i32, i32)]) -> Result<Corners, Refusal> {
        if corners.len() > MOST_CORNERS {
            return Err(Refusal::CornerCount);
        }
        let mut xy = [0; MOST_NUMBERS];
        for (place, &(x, y)) in xy.as_chunks_mut::<2>().0.iter_mut().zip(corners) {
            *place = [x, y];
        }
        Ok(Corners::of(xy, corners.len()))
    }

    /// The first corners of an array of numbers, zeros after them.
    pub(crate) fn of(xy: [i32; MOST_NUMBERS], count: usize) -> Corners {
        debug_assert!(xy[2 * count..].iter().all(|&number| number == 0));
        Corners { xy, count }
    }

    /// x and y of each corner in turn.
    pub(crate) fn numbers(&self) -> &[i32] {
        &self.xy[..2 * self.count]
    }

    pub(crate) fn iter(&self) -> impl ExactSizeIterator<Item = (i32, i32)> {
        let pairs = self.numbers().as_chunks::<2>().0;
        pairs.iter().map(|&[x, y]| (x, y))
    }
}
