//! Shim: geomgraph/mod.rs names these; nothing that is compared asks them anything.

pub(crate) struct LineIntersection;
pub(crate) trait LineIntersector {}
