//! Shim: geomgraph/mod.rs declares this module; nothing of it is asked for.
