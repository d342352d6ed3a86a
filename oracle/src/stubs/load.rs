//! Stub of mechanism/load.rs: the one name that the mechanism exports.

/// Exported by the mechanism, used by nothing here.
pub struct PointLoad;
