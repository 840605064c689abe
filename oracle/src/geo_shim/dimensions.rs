//! Shim: the four dimensions in rising order, and which one a geometry has.

use crate::GeoFloat;
use crate::geometry_cow::GeometryCow;

#[derive(Clone, Copy, Debug, Hash, PartialEq, Eq, PartialOrd, Ord)]
pub enum Dimensions {
    Empty,
    ZeroDimensional,
    OneDimensional,
    TwoDimensional,
}

pub trait HasDimensions {
    fn dimensions(&self) -> Dimensions;
    fn boundary_dimensions(&self) -> Dimensions;
}

/// The crate's files ask this only to tell an area from what is none. The shim uses two of the ten cases: a polygon
/// is an area with a boundary, everything else stands for no area.
impl<F: GeoFloat> HasDimensions for GeometryCow<'_, F> {
    fn dimensions(&self) -> Dimensions {
        match self {
            GeometryCow::Polygon(_) => Dimensions::TwoDimensional,
            _ => Dimensions::ZeroDimensional,
        }
    }

    fn boundary_dimensions(&self) -> Dimensions {
        match self {
            GeometryCow::Polygon(_) => Dimensions::OneDimensional,
            _ => Dimensions::Empty,
        }
    }
}
