//! Random closed outlines of lines and arcs on hinges and slides, with cuts
//! and ranges of every kind.

use crate::outline::{add_point_line, around, direction, polygon, star, with_arcs};
use crate::random::Rng;
use crate::sheet::{solid, Joint, Part, Range, Seg, Sheet, Sweep, Two};

/// Any sweep for a part that is not revolved.
fn some_sweep(rng: &mut Rng) -> Sweep {
    match rng.below(8) {
        0 => Sweep::Milled { width: 0.1 },
        1 => Sweep::Oval { width: 0.1 },
        2 => Sweep::Extruded {
            width: 0.5,
            across: rng.pick(&[0.25, -0.25, 0.249, 1.0, -0.0]),
        },
        _ => Sweep::Extruded {
            width: 1.0,
            across: 0.0,
        },
    }
}

/// A part of a random outline about a centre.
fn some_part(rng: &mut Rng, body: usize, center: Two, radius: f64) -> Part {
    let n = rng.between(3, 6);
    let least = rng.pick(&[1.0, 1.0, 0.7, 0.4]);
    let points = star(rng, n, center, radius, least);
    let often = rng.pick(&[2, 4, 100]);
    let mut outline = with_arcs(rng, &points, 0.3 * radius, often);
    if rng.once_in(8) {
        add_point_line(rng, &mut outline);
    }
    Part {
        role: rng.pick(&['S', 'S', 'S', 'L']),
        sweep: some_sweep(rng),
        ..solid(body, outline)
    }
}

/// A revolved part whose profile stands right of the axis.
fn some_turned_part(rng: &mut Rng, body: usize, center: Two, radius: f64) -> Part {
    let hole = rng.pick(&[0.0, 0.2, 0.3]) * radius;
    let low = center.1 - 0.5 * radius;
    let high = center.1 + 0.5 * radius;
    let points = [
        (hole, low + rng.noise(0.1 * radius)),
        (radius, low),
        (radius * rng.range(0.8, 1.2), center.1),
        (radius * rng.range(0.6, 1.0), high),
        (hole, high + rng.pick(&[0.0, 0.0, 0.1]) * radius),
    ];
    let often = rng.pick(&[3, 100, 100]);
    Part {
        role: rng.pick(&['S', 'L']),
        sweep: Sweep::Revolved {
            axis: rng.pick(&[center.0, center.0, 0.0, -0.0]),
        },
        ..solid(body, with_arcs(rng, &points, 0.2 * radius, often))
    }
}

/// A cut whose mouth is a line of the given outline, reaching into it, with
/// or without arcs.
pub fn cut_at(rng: &mut Rng, body: usize, outline: &[Seg], line: usize) -> Option<Part> {
    let Seg::Line { a, b } = outline[line] else {
        return None;
    };
    let inward = direction((-(b.1 - a.1), b.0 - a.0))?;
    let depth = rng.range(0.1, 0.8);
    let deep = |p: Two| (p.0 + depth * inward.0, p.1 + depth * inward.1);
    let middle = (0.5 * (a.0 + b.0), 0.5 * (a.1 + b.1));
    let points = match rng.below(6) {
        0 => vec![a, b, deep(a)],
        1 => vec![a, b, deep(b)],
        2 => vec![a, b, middle, deep(a)],
        3 => vec![a, b, deep(b), middle, deep(a)],
        4 => vec![b, a, deep(a), deep(b)],
        _ => vec![a, b, deep(b), deep(a)],
    };
    let inner = if rng.once_in(3) {
        with_arcs(rng, &points, 0.1, 3)
    } else {
        polygon(&points)
    };
    let sweep = if rng.once_in(3) {
        let across = rng.pick(&[0.0, 0.5, 0.7]);
        Sweep::Extruded { width: 1.0, across }
    } else {
        Sweep::Milled { width: 0.1 }
    };
    Some(Part {
        role: 'C',
        sweep,
        ..solid(body, inner)
    })
}

/// Hangs a body on one of the bodies so far.
fn some_body(rng: &mut Rng, sheet: &mut Sheet, at: Two) -> usize {
    let parent = rng.pick(&[0, 0, sheet.bodies.len()]);
    if sheet.coords > 0 && rng.once_in(5) {
        let coord = rng.below(sheet.coords);
        let joint = match rng.below(3) {
            0 => Joint::Ground,
            1 => Joint::Hinge { coord, pivot: at },
            _ => Joint::Slide {
                coord,
                origin: at,
                axis: around(rng.unit()),
            },
        };
        return sheet.body(parent, joint);
    }
    let value = rng.pick(&[0.0, 0.1, 1.0, 3.0]) * rng.range(-1.0, 1.0);
    if rng.once_in(2) {
        sheet.hinge(parent, at, value)
    } else {
        let axis = around(rng.unit());
        let origin = (at.0 - value * axis.0, at.1 - value * axis.1);
        sheet.slide(parent, origin, axis, value)
    }
}

/// One to three ranges on a part: one, adjacent ones, the whole silhouette,
/// or one repeated.
fn some_ranges(rng: &mut Rng, part: usize, count: usize, most: usize) -> Vec<Range> {
    let length = rng.between(most.min(count).div_ceil(2), most.min(count));
    let first = rng.below(count - length + 1);
    match rng.below(8) {
        0 | 6 if count <= 12 => vec![(part, 0, count)],
        1 if length > 1 => {
            let middle = first + rng.between(1, length - 1);
            vec![(part, first, middle), (part, middle, first + length)]
        }
        2 if length <= 3 => vec![(part, first, first + length); 2],
        3 if count <= 6 => vec![(part, first, count), (part, 0, first.max(1))],
        4 => {
            let other = rng.below(count);
            vec![(part, first, first + length), (part, other, other + 1)]
        }
        _ => vec![(part, first, first + length)],
    }
}

/// The ranges of a side: of its solid, of its cut, or of both.
fn some_side(rng: &mut Rng, sheet: &Sheet, solid: usize, cut: Option<usize>) -> Vec<Range> {
    let count = |part: usize| sheet.parts[part].silhouette_len();
    let mut ranges = some_ranges(rng, solid, count(solid), 6);
    if let Some(cut) = cut {
        let mut more = some_ranges(rng, cut, count(cut), 4);
        match rng.below(4) {
            0 => ranges = more,
            1 => ranges.append(&mut more),
            2 => {
                more.append(&mut ranges);
                ranges = more;
            }
            _ => {}
        }
    }
    ranges
}

/// Adds a body with a part and at times a cut of it; gives part and cut.
fn add_carried(rng: &mut Rng, sheet: &mut Sheet, at: Two, ground: bool) -> (usize, Option<usize>) {
    let (body, center) = if ground {
        (0, at)
    } else {
        (some_body(rng, sheet, at), (rng.noise(0.5), rng.noise(0.5)))
    };
    let radius = rng.range(0.5, 1.0);
    let part = if rng.once_in(4) {
        some_turned_part(rng, body, center, radius)
    } else {
        some_part(rng, body, center, radius)
    };
    let line = rng.below(part.outline.len());
    let cut = match rng.once_in(3) {
        true => cut_at(rng, body, &part.outline, line),
        false => None,
    };
    let part = sheet.part(part);
    (part, cut.map(|cut| sheet.part(cut)))
}

/// Adds a cut on any body whose mouth has the coordinates of a line of any
/// part.
fn add_foreign_cut(rng: &mut Rng, sheet: &mut Sheet) {
    let body = rng.below(sheet.bodies.len() + 1);
    let part = rng.below(sheet.parts.len());
    let line = rng.below(sheet.parts[part].outline.len());
    let cut = cut_at(rng, body, &sheet.parts[part].outline, line);
    sheet.parts.extend(cut);
}

/// Two to four bodies with random outlines, one to three pairs.
pub fn random_outlines(rng: &mut Rng) -> Sheet {
    let mut sheet = Sheet::default();
    let mut carried = Vec::new();
    let bodies = rng.between(2, 4);
    for k in 0..bodies {
        let d = around(rng.unit());
        let far = if k == 0 { 0.0 } else { rng.range(0.5, 2.2) };
        carried.push(add_carried(rng, &mut sheet, (far * d.0, far * d.1), k == 0));
    }
    for _ in 0..rng.between(1, 3) {
        let i = rng.below(bodies);
        let j = (i + rng.between(1, bodies - 1)) % bodies;
        let a = some_side(rng, &sheet, carried[i].0, carried[i].1);
        let b = some_side(rng, &sheet, carried[j].0, carried[j].1);
        sheet.pair(rng.once_in(5), &a, &b);
    }
    if rng.once_in(6) {
        sheet.coordinate(0.5);
    }
    if rng.once_in(5) {
        add_foreign_cut(rng, &mut sheet);
    }
    let all = f64::INFINITY;
    sheet.margin = rng.pick(&[all, all, all, all, 1.0, 1.0, 0.5, 0.1, f64::NAN, -0.1]);
    sheet
}
