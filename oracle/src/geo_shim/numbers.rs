//! Shim: the three kinds of numbers. The crate's files ask for their names and for what a plain number can do.

use std::fmt::Debug;

pub trait CoordNum: Copy + Debug + PartialOrd + Default {}
pub trait GeoNum: CoordNum {}
pub trait GeoFloat: GeoNum {}

impl CoordNum for f64 {}
impl GeoNum for f64 {}
impl GeoFloat for f64 {}
