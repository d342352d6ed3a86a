//! Stub of mechanism/hold.rs: the two names that the mechanism exports, and
//! a constructor that makes no check of bodies, since document 01 takes
//! nothing of `Mechanism::new`.

use super::{Body, Coord, Mechanism};

/// Exported by the mechanism, used by nothing here.
pub struct Held;

/// Exported by the mechanism, used by nothing here.
pub struct Prescribed;

impl Mechanism {
    /// A mechanism of these bodies, the ground first, with `coords`
    /// coordinates, no parts and no pairs. The kinds, limits and frictions of
    /// the coordinates are constants: no reading asks for them.
    pub(crate) fn unchecked(bodies: Vec<Body>, coords: usize) -> Mechanism {
        Mechanism {
            bodies,
            coords: vec![Coord::LENGTH; coords],
            parts: Vec::new(),
            pairs: Vec::new(),
            features: Vec::new(),
        }
    }
}
