//! The crate's own files (geo 0.33.1), a shim for the names they lean on, and what is asked of both sides.
//!
//! README.md says file by file what is the crate's text and what isn't.

// The macros must stand before the crate's files: those write them without a path.
#[macro_use]
mod log_shim;
mod geo_shim;

// The names that the crate's files take from their own root.
pub(crate) use dimensions::HasDimensions;
pub(crate) use geo_shim::contains_properly::ContainsProperly;
pub(crate) use geo_shim::geometry::{
    Coord, Geometry, GeometryCollection, Line, LineString, MultiLineString, MultiPoint,
    MultiPolygon, Point, Polygon, Rect, Triangle,
};
pub(crate) use geo_shim::numbers::{CoordNum, GeoFloat, GeoNum};
pub(crate) use geo_shim::{coordinate_position, dimensions};
pub(crate) use geometry_cow::GeometryCow;

// The crate's text: `geometry_cow` and `relate::geomgraph`, as build.rs laid them out.
include!(concat!(env!("OUT_DIR"), "/geo_modules.rs"));

pub mod bench;
pub mod compare;
pub mod jts_cases;
pub mod masks;
pub mod program;
pub mod sample;

mod asked;
mod asked_star;
mod asked_verdict;
mod bench_floors;
mod bench_masks;
mod bench_plans;
mod bench_traced;
mod direction_pieces;
mod floor_pieces;
mod listed;
mod ours;
mod outline_pieces;
mod pieces;
mod plan_pieces;
mod program_bench;
mod program_signals;
mod random;
mod rule;
mod rule_convert;
mod rule_floor;
mod rule_language;
mod rule_outline;
mod rule_plan;
mod rule_region;
mod rule_report;
mod rule_star;
mod rule_traced;
mod rule_verdict;
mod rule_wkt;
mod sample_again;
mod sample_floors;
mod sample_line;
mod sample_masks;
mod sample_outlines;
mod sample_plans;
mod sample_regions;
mod sample_reports;
mod sample_traced;
mod sample_verdicts;
mod sample_versions;
mod sample_wkt;
mod wkt_pieces;
