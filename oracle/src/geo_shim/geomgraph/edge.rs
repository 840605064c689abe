//! Shim: pouring one label into a matrix, by document 01.

use super::{Dimensions, Direction, IntersectionMatrix, Label};
use crate::GeoFloat;
use std::marker::PhantomData;

/// An edge is a plain label here; only its update of the matrix is asked for.
pub(crate) struct Edge<F: GeoFloat> {
    scalar: PhantomData<F>,
}

impl<F: GeoFloat> Edge<F> {
    /// "A label raises (on A, on B) to 1 and, if an area, (left A, left B) and (right A, right B) to 2. A none skips
    /// its cell."
    pub fn update_intersection_matrix(label: &Label, matrix: &mut IntersectionMatrix) {
        matrix.set_at_least_if_in_both(
            label.on_position(0),
            label.on_position(1),
            Dimensions::OneDimensional,
        );
        if label.is_area() {
            for side in [Direction::Left, Direction::Right] {
                matrix.set_at_least_if_in_both(
                    label.position(0, side),
                    label.position(1, side),
                    Dimensions::TwoDimensional,
                );
            }
        }
    }
}
