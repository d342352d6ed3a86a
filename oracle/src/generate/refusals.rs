//! Faults of a sheet that document 01 refuses by number, one or two at once.

use crate::outline::{corners, polygon};
use crate::random::Rng;
use crate::sheet::{solid, Body, Joint, Part, Range, Seg, Sheet, Sweep};

/// A parent or a coordinate that is not below.
fn fault_4(rng: &mut Rng, sheet: &mut Sheet) {
    let place = rng.below(sheet.bodies.len() + 1);
    let (number, coords) = (place + 1, sheet.coords);
    let body = match rng.below(4) {
        0 => Body {
            parent: number,
            joint: Joint::Ground,
        },
        1 => Body {
            parent: rng.pick(&[number + 1, 65_535]),
            joint: Joint::Hinge {
                coord: 0,
                pivot: (0.0, 0.0),
            },
        },
        2 => Body {
            parent: 0,
            joint: Joint::Hinge {
                coord: coords,
                pivot: (0.0, 0.0),
            },
        },
        _ => Body {
            parent: place,
            joint: Joint::Slide {
                coord: rng.pick(&[coords, 65_535]),
                origin: (0.0, 0.0),
                axis: (0.0, 0.0),
            },
        },
    };
    if place < sheet.bodies.len() {
        sheet.bodies[place] = body;
    } else {
        sheet.bodies.push(body);
    }
}

/// A direction that has none, or a revolved axis that is NaN.
fn fault_5(rng: &mut Rng, sheet: &mut Sheet) {
    let none = rng.pick(&[
        (0.0, 0.0),
        (0.0, -0.0),
        (f64::from_bits(0x6570_0000_0000_0000), 0.0),
        (f64::from_bits(0x1a70_0000_0000_0000), 0.0),
        (f64::NAN, 1.0),
        (f64::INFINITY, 0.0),
    ]);
    let some = (1.0, 0.0);
    match rng.below(3) {
        0 => {
            let coord = sheet.coordinate(0.0);
            let joint = Joint::Slide {
                coord,
                origin: (0.0, 0.0),
                axis: none,
            };
            sheet.body(0, joint);
        }
        1 => {
            let (from, to) = rng.pick(&[(none, some), (some, none)]);
            let arc = Seg::Arc {
                c: (0.0, 0.0),
                r: 1.0,
                from,
                to,
            };
            sheet.part(solid(0, vec![arc]));
        }
        _ => {
            let axis = rng.pick(&[f64::NAN, -f64::NAN]);
            sheet.part(Part {
                sweep: Sweep::Revolved { axis },
                ..solid(0, polygon(&corners(0.0, 0.0, 1.0, 1.0)))
            });
        }
    }
}

/// A place for a new part: at the end, or in front of the others, whose
/// ranges then name the part before.
fn insert(rng: &mut Rng, sheet: &mut Sheet, part: Part) {
    if rng.once_in(3) {
        sheet.parts.insert(0, part);
    } else {
        sheet.parts.push(part);
    }
}

/// A part on a body that does not exist.
fn fault_6(rng: &mut Rng, sheet: &mut Sheet) {
    let body = rng.pick(&[sheet.bodies.len() + 1, 65_535]);
    let part = solid(body, polygon(&corners(0.0, 0.0, 1.0, 1.0)));
    insert(rng, sheet, part);
}

/// An outline that is not finite or not closed.
fn fault_7(rng: &mut Rng, sheet: &mut Sheet) {
    let x = rng.pick(&[f64::NAN, f64::INFINITY, 1.0 + f64::EPSILON, -1.0]);
    let line = |a, b| Seg::Line { a, b };
    let (p, q, s) = ((0.0, 0.0), (1.0, 0.0), (0.0, 1.0));
    let outline = match rng.below(7) {
        0 => vec![],
        1 => vec![line(p, p)],
        2 => vec![line(p, q), line(q, s), line(s, (-0.0, 0.0))],
        3 => vec![line(p, q), line((x, 0.0), s), line(s, p)],
        4 => polygon(&[p, q, (f64::NEG_INFINITY, 1.0)]),
        5 => polygon(&[p, (f64::NAN, 0.0), s]),
        _ => vec![
            line((1.0, 0.0), s),
            Seg::Arc {
                c: (0.0, 0.0),
                r: 1.0,
                from: (0.0, 1.0),
                to: (3.0, 4.0),
            },
        ],
    };
    insert(rng, sheet, solid(0, outline));
}

/// A range that is not drawn, or a side without one.
fn fault_8(rng: &mut Rng, sheet: &mut Sheet) {
    let count = sheet.parts.len();
    let length = sheet.parts.first().map_or(0, Part::silhouette_len);
    let fine = (0, 0, 1);
    let bad: Vec<Range> = match rng.below(7) {
        0 => vec![],
        1 => vec![(count, 0, 1)],
        2 => vec![(65_535, 0, 1)],
        3 => vec![(0, 1, 1)],
        4 => vec![(0, 2, 1)],
        5 => vec![(0, length.saturating_sub(1), length + 1)],
        _ => vec![fine, (0, length, length + 1)],
    };
    let place = rng.below(sheet.pairs.len() + 1);
    let (a, b) = if rng.once_in(2) {
        (bad, vec![fine])
    } else {
        (vec![fine], bad)
    };
    let centered = rng.once_in(2);
    sheet.pairs.insert(place, crate::sheet::Pair { centered, a, b });
}

/// The number of a new small part on a body.
fn small_part(sheet: &mut Sheet, body: usize) -> usize {
    sheet.part(solid(body, polygon(&corners(0.0, 0.0, 1.0, 1.0))))
}

/// A side on two bodies, at times with a range after it that is not drawn.
fn fault_9(rng: &mut Rng, sheet: &mut Sheet) {
    let other = sheet.bodies.len();
    let (i, j) = (small_part(sheet, 0), small_part(sheet, other));
    let mut two = vec![(i, 0, 1), (j, 0, 1)];
    if rng.once_in(3) {
        two.insert(rng.below(3), (i, 3, 5));
    }
    if rng.once_in(2) {
        sheet.pair(false, &two, &[(j, 1, 2)]);
    } else {
        sheet.pair(false, &[(j, 1, 2)], &two);
    }
}

/// Both sides on one body.
fn fault_10(rng: &mut Rng, sheet: &mut Sheet) {
    let body = rng.below(sheet.bodies.len() + 1);
    let (i, j) = (small_part(sheet, body), small_part(sheet, body));
    let other = rng.pick(&[i, j]);
    sheet.pair(rng.once_in(2), &[(i, 0, 2)], &[(other, 1, 3)]);
}

/// Too many or too few entries.
fn fault_11(rng: &mut Rng, sheet: &mut Sheet) {
    if rng.once_in(2) && !sheet.entries.is_empty() {
        sheet.entries.pop();
    } else {
        for _ in 0..rng.pick(&[1, 2, 20]) {
            sheet.entries.push((0.0, 0.0, 1.0));
        }
    }
}

/// Pairs whose bound is above what the program lends.
fn fault_13(rng: &mut Rng, sheet: &mut Sheet) {
    let other = sheet.bodies.len();
    let (i, j) = (small_part(sheet, 0), small_part(sheet, other));
    for _ in 0..rng.between(1, 6) {
        sheet.pair(false, &[(i, 0, 4), (i, 0, 4)], &[(j, 0, 4), (j, 1, 3)]);
    }
}

/// Puts one or two faults into a sheet.
pub fn fault(rng: &mut Rng, sheet: &mut Sheet) {
    for _ in 0..rng.pick(&[1, 1, 2, 2, 3]) {
        match rng.below(10) {
            0 => fault_4(rng, sheet),
            1 => fault_5(rng, sheet),
            2 => fault_6(rng, sheet),
            3 => fault_7(rng, sheet),
            4 => fault_8(rng, sheet),
            5 => fault_9(rng, sheet),
            6 => fault_10(rng, sheet),
            7 => fault_11(rng, sheet),
            8 => sheet.coords = rng.pick(&[sheet.coords + 1, 17, 65_535]),
            _ => fault_13(rng, sheet),
        }
    }
}
