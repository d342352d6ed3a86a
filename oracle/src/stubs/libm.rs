//! Stub of the crate libm: sine and cosine are those lent with the pose. The
//! caller lends them in the order in which they will be asked for, so that
//! one value may have two different sines.

use std::cell::RefCell;
use std::collections::VecDeque;

/// One lent result, with the function that may hand it out.
#[derive(Clone, Copy, Debug)]
pub enum Lent {
    Sine(f64),
    Cosine(f64),
}

thread_local! {
    static QUEUE: RefCell<VecDeque<Lent>> = const { RefCell::new(VecDeque::new()) };
}

/// Replaces what is lent.
pub fn lend(results: Vec<Lent>) {
    QUEUE.with(|queue| *queue.borrow_mut() = results.into());
}

/// How many lent results have not been asked for.
pub fn left() -> usize {
    QUEUE.with(|queue| queue.borrow().len())
}

fn next() -> Option<Lent> {
    QUEUE.with(|queue| queue.borrow_mut().pop_front())
}

/// The next lent result, which must be a sine.
pub fn sin(_: f64) -> f64 {
    match next() {
        Some(Lent::Sine(sine)) => sine,
        other => panic!("a sine was asked for, lent was {other:?}"),
    }
}

/// The next lent result, which must be a cosine.
pub fn cos(_: f64) -> f64 {
    match next() {
        Some(Lent::Cosine(cosine)) => cosine,
        other => panic!("a cosine was asked for, lent was {other:?}"),
    }
}

/// No reading asks for an angle.
pub fn atan2(_: f64, _: f64) -> f64 {
    unimplemented!()
}
