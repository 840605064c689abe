//! Misonkandi for Rust: the proved DE-9IM matrix under the names of the crate geo 0.33.1.
//!
//! Where a program says `use geo::relate::IntersectionMatrix`, `geo::coordinate_position::CoordPos` or
//! `geo::dimensions::Dimensions`, it may say `misonkandi` for `geo`. Each call goes to `libmisonkandi.a`, in which every
//! function is proved to meet its contract; this crate only turns enums into the library's numbers and back. Its own code
//! isn't proved: its tests replay stored answers of geo and of GEOS through it.
//!
//! ```
//! use misonkandi::{CoordPos, IntersectionMatrix, Predicate, Record, Refusal};
//!
//! let mut matrix = IntersectionMatrix::empty_disjoint();
//! // A plan record: a node inside A and on B's boundary, in no area, where no walls end.
//! let corner = Record::node([CoordPos::Inside, CoordPos::OnBoundary], [None, None], &[])?;
//! assert_eq!(matrix.pour_record(&corner), Ok(9)); // nine bytes used
//! assert_eq!(matrix.to_string(), "F0FFFFFF2");
//! assert!(matrix.is_touches());
//! assert_eq!(matrix.matches("*0*******"), Ok(true));
//! assert_eq!(matrix.matches("T0X******"), Err(Refusal::BadByte(2))); // refusal 11 at place 2, on every matrix
//! let yes = Predicate::ALL.into_iter().filter(|&p| matrix.ask(p)).map(Predicate::name);
//! assert_eq!(yes.collect::<Vec<_>>(), ["intersects", "coveredby", "covers", "touches"]);
//! # Ok::<(), Refusal>(())
//! ```
//!
//! [`Masks`] asks one pattern of many matrices. [`floor`] pours a whole floor of records in one call, and [`Pieces`] one
//! that comes in pieces. [`Traced`] is a matrix that says which record made each cell. [`Outline`] says where
//! a point lies against a room's walls, and [`Outline::relate`] how the insides, walls and outsides of two rooms meet.
//! [`Shape`] is a point, a line or a polygon, read from WKT text and written as such. [`Region`] is Egenhofer's name of a
//! matrix or of two boxes.
//!
//! What differs from geo: a refusal is a number and a place, not a text; a bad letter of a pattern is refused on every
//! matrix; raising from text is all or nothing; any line on a geometry's boundary collapses it at a node, not only the
//! last one in order; `set`, `set_at_least` and their kin are public. docs/DIFFERENCES.md has the list, and what was run to
//! know it.
//!
//! The crate needs no `std`. Its feature `alloc`, on by default, is for [`star`] and [`star_of_bytes`], which answer a list;
//! [`write_star`] writes it into bytes that are lent.
#![no_std]
#![deny(unsafe_code)]
#![warn(missing_docs, clippy::undocumented_unsafe_blocks)]

#[cfg(feature = "alloc")]
extern crate alloc;

#[allow(unsafe_code)]
mod c;
mod conversion;
mod corners;
mod floor;
mod masks;
mod matrix;
mod outline;
mod outlines;
mod place;
mod positions;
mod predicate;
mod record;
mod refusal;
mod region;
mod report;
mod shape;
mod star;
mod traced;
mod verdict;

pub use conversion::{MOST_CONVERTED_BYTES, convert_record};
pub use corners::MOST_CORNERS;
pub use floor::{Floor, PIECES_BYTES, Pieces, floor};
pub use masks::Masks;
pub use matrix::IntersectionMatrix;
pub use outline::{Outline, point_in_outline};
pub use outlines::{
    MOST_COMMISSION_BYTES, OutlinesRefusal, Which, commission_outlines, relate_outlines,
};
pub use place::{Coord, Place, relate_coded};
pub use positions::{CoordPos, Dimensions};
pub use predicate::{NoSuchPredicate, Predicate};
pub use record::{MOST_RECORD_BYTES, Record};
pub use refusal::{InvalidInputError, Refusal};
pub use region::{NoSuchRegion, Region};
pub use report::{REPORT_BYTES, SHORT_REPORT_BYTES, convert_report};
pub use shape::{MOST_WKT_BYTES, Shape, ShapeKind, read_wkt, write_wkt};
pub use star::{
    END_BYTES, EdgeEnd, LABEL_BYTES, Label, MOST_ENDS, MOST_ENDS_OF_VERSION_1, Sides, bundle,
    bundle_of_bytes, write_star,
};
#[cfg(feature = "alloc")]
pub use star::{star, star_of_bytes};
pub use traced::Traced;
pub use verdict::Verdict;

/// geo's module of this name. geo's own example of reading a matrix, with `misonkandi` for `geo`:
///
/// ```
/// use misonkandi::algorithm::relate::IntersectionMatrix;
/// use std::str::FromStr;
///
/// let intersection_matrix = IntersectionMatrix::from_str("212101212").expect("valid DE-9IM specification");
/// assert!(intersection_matrix.is_intersects());
/// assert!(!intersection_matrix.is_contains());
/// ```
pub mod relate {
    pub use crate::matrix::IntersectionMatrix;
    pub use crate::refusal::InvalidInputError;
}

/// geo's module of this name.
pub mod coordinate_position {
    pub use crate::positions::CoordPos;
}

/// geo's module of this name.
pub mod dimensions {
    pub use crate::positions::Dimensions;
}

/// geo's module of this name: the three above, where geo has them too.
pub mod algorithm {
    pub use crate::{coordinate_position, dimensions, relate};
}
