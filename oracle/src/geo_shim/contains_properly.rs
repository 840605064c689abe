//! Shim: intersection_matrix.rs only names this trait, in a link of its documentation.

pub trait ContainsProperly {}
