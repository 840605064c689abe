//! Shim: what the bundle and star files ask of a graph: its geometry, and the rule for boundary counts.

use super::CoordPos;
use crate::{GeoFloat, GeometryCow, Point, Polygon};
use std::borrow::Cow;
use std::marker::PhantomData;

pub struct GeometryGraph<'a, F: GeoFloat> {
    geometry: GeometryCow<'a, F>,
}

impl<'a, F: GeoFloat> GeometryGraph<'a, F> {
    /// The graph of an area in which the node has this position, or of no area.
    pub(crate) fn with_area_position(position: Option<CoordPos>) -> Self {
        let scalar = PhantomData;
        let geometry = match position {
            Some(position) => GeometryCow::Polygon(Cow::Owned(Polygon { position, scalar })),
            None => GeometryCow::Point(Cow::Owned(Point(scalar))),
        };
        Self { geometry }
    }

    pub(crate) fn geometry(&self) -> &GeometryCow<'a, F> {
        &self.geometry
    }

    /// "with k ends on the boundary, k odd gives OnBoundary, k even and positive gives Inside"
    pub(crate) fn determine_boundary(boundary_count: usize) -> CoordPos {
        if boundary_count % 2 == 1 {
            CoordPos::OnBoundary
        } else {
            CoordPos::Inside
        }
    }
}
