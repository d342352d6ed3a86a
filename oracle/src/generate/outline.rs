//! Closed outlines. The ends of arcs are computed as the original computes
//! them, and the lines beside an arc take those ends, so that every outline
//! closes bit for bit.

use crate::random::Rng;
use crate::sheet::{Seg, Two};

/// A corner or an arc of an outline; lines run between them.
#[derive(Clone, Copy)]
pub enum Element {
    Corner(Two),
    Arc { c: Two, r: f64, from: Two, to: Two },
}

/// The direction of a vector, as `Dir::new` computes it.
pub fn direction((x, y): Two) -> Option<Two> {
    let length = (x * x + y * y).sqrt();
    (length.is_finite() && length > 0.0).then(|| (x / length, y / length))
}

/// The point of a circle in the direction of a vector.
fn on_circle(c: Two, r: f64, toward: Two) -> Two {
    let d = direction(toward).unwrap_or((1.0, 0.0));
    (c.0 + r * d.0, c.1 + r * d.1)
}

fn start(element: Element) -> Two {
    match element {
        Element::Corner(p) => p,
        Element::Arc { c, r, from, .. } => on_circle(c, r, from),
    }
}

fn end(element: Element) -> Two {
    match element {
        Element::Corner(p) => p,
        Element::Arc { c, r, to, .. } => on_circle(c, r, to),
    }
}

fn same(p: Two, q: Two) -> bool {
    p.0.to_bits() == q.0.to_bits() && p.1.to_bits() == q.1.to_bits()
}

/// The outline through the elements in order, and for each element the
/// number of the segment that leaves it.
pub fn chain_with_places(elements: &[Element]) -> (Vec<Seg>, Vec<usize>) {
    let (mut segs, mut leaving) = (Vec::new(), Vec::new());
    for (i, &element) in elements.iter().enumerate() {
        if let Element::Arc { c, r, from, to } = element {
            segs.push(Seg::Arc { c, r, from, to });
        }
        leaving.push(segs.len());
        let (a, b) = (end(element), start(elements[(i + 1) % elements.len()]));
        if !same(a, b) {
            segs.push(Seg::Line { a, b });
        }
    }
    (segs, leaving)
}

/// The outline through the elements in order.
pub fn chain(elements: &[Element]) -> Vec<Seg> {
    chain_with_places(elements).0
}

/// The outline of straight lines through the points.
pub fn polygon(points: &[Two]) -> Vec<Seg> {
    let n = points.len();
    (0..n)
        .map(|i| Seg::Line {
            a: points[i],
            b: points[(i + 1) % n],
        })
        .collect()
}

/// The four corners of a rectangle, counter-clockwise from the lower left.
pub fn corners(x0: f64, y0: f64, x1: f64, y1: f64) -> [Two; 4] {
    [(x0, y0), (x1, y0), (x1, y1), (x0, y1)]
}

/// A vector along the outward normal of the way from `p` to `q` of a
/// counter-clockwise outline; of length 1 only where it is level or upright.
fn normal(p: Two, q: Two) -> Two {
    let vector = (q.1 - p.1, -(q.0 - p.0));
    match direction(vector) {
        None => (0.0, -1.0),
        Some(unit) if vector.0 == 0.0 || vector.1 == 0.0 => unit,
        Some(_) => vector,
    }
}

/// The arc that rounds the corner `q` between `p` and `s`, tangent to both
/// lines.
fn rounding(p: Two, q: Two, s: Two, r: f64) -> Element {
    let (from, to) = (normal(p, q), normal(q, s));
    let unit = |v: Two| direction(v).unwrap_or((0.0, -1.0));
    let (f, t) = (unit(from), unit(to));
    let k = r / (1.0 + f.0 * t.0 + f.1 * t.1);
    let c = (q.0 - k * (f.0 + t.0), q.1 - k * (f.1 + t.1));
    Element::Arc { c, r, from, to }
}

/// The elements of a polygon whose corners are rounded by the given radii,
/// 0 for a sharp one.
pub fn rounded(points: &[(Two, f64)]) -> Vec<Element> {
    let n = points.len();
    (0..n)
        .map(|i| match points[i] {
            (p, r) if r == 0.0 => Element::Corner(p),
            (p, r) => rounding(points[(i + n - 1) % n].0, p, points[(i + 1) % n].0, r),
        })
        .collect()
}

/// A point of the unit circle, one turn for `turn` from 0 to 1, without
/// sine and cosine.
pub fn around(turn: f64) -> Two {
    let quarters = 4.0 * (turn - turn.floor());
    let t = quarters - quarters.floor();
    let (x, y) = ((1.0 - t * t) / (1.0 + t * t), 2.0 * t / (1.0 + t * t));
    match quarters as u32 {
        0 => (x, y),
        1 => (-y, x),
        2 => (-x, -y),
        _ => (y, -x),
    }
}

/// Points round a centre: `n` of them, at distances from `least` to 1 times
/// the radius, so that 1 gives a convex polygon.
pub fn star(rng: &mut Rng, n: usize, center: Two, radius: f64, least: f64) -> Vec<Two> {
    (0..n)
        .map(|k| {
            let d = around((k as f64 + rng.range(0.0, 0.8)) / n as f64);
            let r = radius * rng.range(least, 1.0);
            (center.0 + r * d.0, center.1 + r * d.1)
        })
        .collect()
}

/// Two directions of an arc: any two, two equal ones or two opposite ones.
fn some_sweep(rng: &mut Rng) -> (Two, Two) {
    let from = around(rng.unit());
    match rng.below(5) {
        0 => (from, from),
        1 => (from, (-from.0, -from.1)),
        _ => (from, around(rng.unit())),
    }
}

/// Adds a line of no length where a line starts.
pub fn add_point_line(rng: &mut Rng, outline: &mut Vec<Seg>) {
    let k = rng.below(outline.len());
    if let Seg::Line { a, .. } = outline[k] {
        outline.insert(k, Seg::Line { a, b: a });
    }
}

/// An outline through points, some of them replaced by arcs about them: in
/// most cases from one outward normal to the other, at times over any sweep
/// or with a radius of zero or below.
pub fn with_arcs(rng: &mut Rng, points: &[Two], radius: f64, arc_once_in: usize) -> Vec<Seg> {
    let n = points.len();
    let elements: Vec<Element> = (0..n)
        .map(|i| {
            let (p, q, s) = (points[(i + n - 1) % n], points[i], points[(i + 1) % n]);
            if !rng.once_in(arc_once_in) {
                return Element::Corner(q);
            }
            let r = match rng.below(12) {
                0 => 0.0,
                1 => -radius * rng.unit(),
                _ => radius * rng.unit(),
            };
            let any = rng.once_in(6);
            let (from, to) = if any {
                some_sweep(rng)
            } else {
                (normal(p, q), normal(q, s))
            };
            if rng.once_in(3) && !any {
                rounding(p, q, s, r)
            } else {
                Element::Arc { c: q, r, from, to }
            }
        })
        .collect();
    chain(&elements)
}
