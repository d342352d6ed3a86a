//! Stub of the registry: the types that the description of a pin's friction
//! is written with. No reading asks for them.
#![allow(dead_code)]

/// A setting of a design.
pub struct ParamSpec<T> {
    pub name: &'static str,
    pub quantity: Quantity,
    pub hard: (f64, f64),
    pub step: Step,
    pub layer: Layer,
    pub kind: Kind,
    pub get: fn(&T) -> f64,
    pub set: fn(&mut T, f64),
}

/// What a setting measures.
pub enum Quantity {
    Torque,
}

/// How a setting moves.
pub enum Step {
    Continuous,
}

/// Where a setting belongs.
pub enum Layer {
    Design,
}

/// What a setting acts on.
pub enum Kind {
    Actuated,
}
