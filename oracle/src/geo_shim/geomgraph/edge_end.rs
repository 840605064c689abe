//! Shim: an end of an edge at a node, with its whole-number direction and its label, and the direction order.

use super::{Label, Quadrant};
use crate::{Coord, GeoFloat};
use std::cmp::Ordering;
use std::marker::PhantomData;

#[derive(Clone, Debug)]
pub(crate) struct EdgeEnd<F: GeoFloat> {
    coordinate: Coord<F>,
    key: EdgeEndKey<F>,
    label: Label,
}

impl<F: GeoFloat> EdgeEnd<F> {
    pub fn new(coordinate: Coord<F>, dx: i32, dy: i32, label: Label) -> Self {
        let key = EdgeEndKey {
            dx,
            dy,
            scalar: PhantomData,
        };
        Self {
            coordinate,
            key,
            label,
        }
    }

    pub fn key(&self) -> &EdgeEndKey<F> {
        &self.key
    }

    pub fn coordinate(&self) -> &Coord<F> {
        &self.coordinate
    }

    pub fn label(&self) -> &Label {
        &self.label
    }

    pub fn label_mut(&mut self) -> &mut Label {
        &mut self.label
    }
}

/// A direction, never 0,0.
#[derive(Clone, Debug)]
pub(crate) struct EdgeEndKey<F: GeoFloat> {
    dx: i32,
    dy: i32,
    scalar: PhantomData<F>,
}

impl<F: GeoFloat> EdgeEndKey<F> {
    fn quadrant(&self) -> Quadrant {
        Quadrant::new(self.dx, self.dy)
    }
}

/// "In one quadrant the sign of dx1·dy2 − dy1·dx2 decides: positive means the second comes later, zero means the
/// same bundle."
impl<F: GeoFloat> Ord for EdgeEndKey<F> {
    fn cmp(&self, other: &Self) -> Ordering {
        let product = |x: i32, y: i32| i128::from(x) * i128::from(y);
        self.quadrant().cmp(&other.quadrant()).then_with(|| {
            let turn = product(self.dx, other.dy) - product(self.dy, other.dx);
            0.cmp(&turn)
        })
    }
}

impl<F: GeoFloat> PartialOrd for EdgeEndKey<F> {
    fn partial_cmp(&self, other: &Self) -> Option<Ordering> {
        Some(self.cmp(other))
    }
}

impl<F: GeoFloat> PartialEq for EdgeEndKey<F> {
    fn eq(&self, other: &Self) -> bool {
        self.cmp(other) == Ordering::Equal
    }
}

impl<F: GeoFloat> Eq for EdgeEndKey<F> {}
