//! Shim: a node's label and its pouring, by document 01.

use super::{CoordPos, Dimensions, IntersectionMatrix, Label, TopologyPosition};
use crate::{Coord, GeoFloat};

#[derive(Clone, Debug)]
pub(crate) struct CoordNode<F: GeoFloat> {
    coordinate: Coord<F>,
    label: Label,
}

impl<F: GeoFloat> CoordNode<F> {
    /// A node with its position in A and in B.
    pub fn at(coordinate: Coord<F>, positions: [CoordPos; 2]) -> Self {
        let mut label = Label::new(0, TopologyPosition::line_or_point(positions[0]));
        label.set_on_position(1, positions[1]);
        Self { coordinate, label }
    }

    pub fn coordinate(&self) -> &Coord<F> {
        &self.coordinate
    }

    pub fn label(&self) -> &Label {
        &self.label
    }

    /// "A node raises (on A, on B) to 0."
    pub fn update_intersection_matrix(&self, matrix: &mut IntersectionMatrix) {
        matrix.set_at_least_if_in_both(
            self.label.on_position(0),
            self.label.on_position(1),
            Dimensions::ZeroDimensional,
        );
    }
}
