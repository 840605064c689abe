//! Shim: the names that the crate's files take from elsewhere in geo, written by document 01's rules.
//!
//! Only what those files ask for is here. The folder geomgraph/ beside this file isn't compiled in place: build.rs
//! puts it next to the crate's geomgraph/mod.rs, which declares those modules.

// Much of this is named by the crate's files and not called yet.
#![allow(dead_code)]

pub(crate) mod contains_properly;
pub(crate) mod coordinate_position;
pub(crate) mod dimensions;
pub(crate) mod geometry;
pub(crate) mod numbers;

#[cfg(test)]
mod tests;
