//! Shim: the geometries that geometry_cow.rs lists. None has corners here: an area is its given position.

use super::coordinate_position::CoordPos;
use std::marker::PhantomData;

/// A node's place. Document 01's records have none, so all stand at the same one.
#[derive(Clone, Copy, Debug, Default, Hash, PartialEq)]
pub struct Coord<T> {
    pub x: T,
    pub y: T,
}

/// An area, known only by where the node lies in it.
#[derive(Clone, Debug, Hash, PartialEq)]
pub struct Polygon<T> {
    pub position: CoordPos,
    pub scalar: PhantomData<T>,
}

macro_rules! geometries_by_name {
    ($($name:ident),*) => { $(
        #[derive(Clone, Debug, Hash, PartialEq)]
        pub struct $name<T>(pub PhantomData<T>);
    )* };
}
geometries_by_name!(
    Point,
    Line,
    LineString,
    MultiPoint,
    MultiLineString,
    MultiPolygon,
    GeometryCollection,
    Rect,
    Triangle
);

#[derive(Clone, Debug, Hash, PartialEq)]
pub enum Geometry<T> {
    Point(Point<T>),
    Line(Line<T>),
    LineString(LineString<T>),
    Polygon(Polygon<T>),
    MultiPoint(MultiPoint<T>),
    MultiLineString(MultiLineString<T>),
    MultiPolygon(MultiPolygon<T>),
    GeometryCollection(GeometryCollection<T>),
    Rect(Rect<T>),
    Triangle(Triangle<T>),
}
