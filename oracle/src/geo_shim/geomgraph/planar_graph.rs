//! Shim: geomgraph/mod.rs names this type; nothing that is compared asks it anything.

pub(crate) struct PlanarGraph;
