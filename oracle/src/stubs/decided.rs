//! What document 01 decides where Rust leaves a result open. The build
//! script puts calls of these functions into the patched sources.
#![allow(dead_code)]

use crate::geometry::Point;
use core::cmp::Ordering;

/// Order of two scores: a NaN ranks above all numbers, two NaNs rank equal,
/// numbers rank in total order.
pub fn rank(x: f64, y: f64) -> Ordering {
    match (x.is_nan(), y.is_nan()) {
        (true, true) => Ordering::Equal,
        (true, false) => Ordering::Greater,
        (false, true) => Ordering::Less,
        (false, false) => x.total_cmp(&y),
    }
}

/// Whether two floats have the same bits; two NaNs always do.
fn same_float(x: f64, y: f64) -> bool {
    (x.is_nan() && y.is_nan()) || x.to_bits() == y.to_bits()
}

/// Whether two points are the same, coordinate by coordinate.
pub fn same(p: Point, q: Point) -> bool {
    same_float(p.x, q.x) && same_float(p.y, q.y)
}

/// The larger of two floats, the first of two equal ones; a NaN beside a
/// number gives the number.
pub fn max(kept: f64, next: f64) -> f64 {
    if kept.is_nan() || next > kept {
        next
    } else {
        kept
    }
}

/// The smaller of two floats, the first of two equal ones; a NaN beside a
/// number gives the number.
pub fn min(kept: f64, next: f64) -> f64 {
    if kept.is_nan() || next < kept {
        next
    } else {
        kept
    }
}
