//! Document 01's examples P1 and P14, on the crate's star and bundle files with this shim below them.

use crate::Coord;
use crate::coordinate_position::CoordPos::{self, Inside, OnBoundary, Outside};
use crate::relate::geomgraph::intersection_matrix::IntersectionMatrix;
use crate::relate::geomgraph::{
    CoordNode, Direction, EdgeEnd, EdgeEndBundle, EdgeEndBundleStar, GeometryGraph, Label,
};

const NODE: Coord<f64> = Coord { x: 0.0, y: 0.0 };

/// An area label of one geometry, on the boundary; the other half is empty, as `Label::new` makes it.
fn side(geometry: usize, left: CoordPos, right: CoordPos) -> Label {
    let mut label = Label::empty_area();
    label.set_on_position(geometry, OnBoundary);
    label.set_position(geometry, Direction::Left, left);
    label.set_position(geometry, Direction::Right, right);
    label
}

#[test]
fn p1_four_ends_pour_212101212() {
    let mut star = EdgeEndBundleStar::new();
    for (dx, dy, label) in [
        (2, 0, side(1, Inside, Outside)),
        (0, 2, side(0, Inside, Outside)),
        (-2, 0, side(1, Outside, Inside)),
        (0, -2, side(0, Outside, Inside)),
    ] {
        star.insert(EdgeEnd::new(NODE, dx, dy, label));
    }
    let graph = GeometryGraph::with_area_position(Some(OnBoundary));
    let mut matrix = IntersectionMatrix::empty_disjoint();
    CoordNode::at(NODE, [OnBoundary, OnBoundary]).update_intersection_matrix(&mut matrix);
    star.into_labeled(&graph, &graph)
        .update_intersection_matrix(&mut matrix);
    assert_eq!(format!("{matrix:?}"), "IntersectionMatrix(212101212)");
}

#[test]
fn p14_two_boundary_ends_give_inside_three_on_boundary() {
    for (count, expected) in [(2, Inside), (3, OnBoundary)] {
        let mut bundle = EdgeEndBundle::new(NODE);
        for _ in 0..count {
            let mut label = Label::empty_line_or_point();
            label.set_on_position(0, OnBoundary);
            bundle.insert(EdgeEnd::new(NODE, 1, 0, label));
        }
        let labeled = bundle.into_labeled();
        assert_eq!(labeled.label().on_position(0), Some(expected));
    }
}
