//! Shim: the three positions, and the question where a coordinate lies.

use crate::geometry_cow::GeometryCow;
use crate::{Coord, GeoFloat};

/// The crate's files say that its members are in this order.
#[derive(Clone, Copy, Debug, Hash, PartialEq, Eq)]
pub enum CoordPos {
    OnBoundary,
    Inside,
    Outside,
}

pub trait CoordinatePosition {
    type Scalar: GeoFloat;

    fn coordinate_position(&self, coord: &Coord<Self::Scalar>) -> CoordPos;
}

/// Document 01 lets a record give the node's area position, so nothing is computed: an area carries it. Anything
/// else is Outside.
impl<F: GeoFloat> CoordinatePosition for GeometryCow<'_, F> {
    type Scalar = F;

    fn coordinate_position(&self, _coord: &Coord<F>) -> CoordPos {
        match self {
            GeometryCow::Polygon(area) => area.position,
            _ => CoordPos::Outside,
        }
    }
}
