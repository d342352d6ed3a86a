//! Sheets that look like the trade: a key over its rails, punchings, a pin
//! in a mortise, cloth.

use crate::outline::{chain, chain_with_places, corners, polygon, rounded, Element};
use crate::random::Rng;
use crate::sheet::{solid, Joint, Part, Range, Seg, Sheet, Sweep, Two};

/// The numbers of a key, in metres, in its own frame: its origin stands on
/// the balance pin's axis at the underside.
pub struct Key {
    pub tail: f64,
    pub front: f64,
    pub height: f64,
    pub chamfer: f64,
    /// The radius at the edges of the underside, 0 for sharp ones.
    pub edge: f64,
    pub mortise: (f64, f64),
    pub depth: f64,
}

/// The keystick, the mortise cut out of it, and the numbers of the
/// underside's three segments: behind the mouth, the mouth, before it.
pub struct Keystick {
    pub part: Part,
    pub cut: Part,
    pub under: usize,
    pub before: usize,
}

/// Draws a key on a body.
pub fn keystick(key: &Key, body: usize) -> Keystick {
    let (m0, m1) = key.mortise;
    let points = [
        ((key.tail, key.chamfer), 0.0),
        ((key.tail + 2.0 * key.chamfer, 0.0), key.edge),
        ((m0, 0.0), 0.0),
        ((m1, 0.0), 0.0),
        ((key.front - key.chamfer, 0.0), key.edge),
        ((key.front, key.chamfer), 0.0),
        ((key.front, key.height), 0.0),
        ((key.tail, key.height), 0.0),
    ];
    let (outline, leaving) = chain_with_places(&rounded(&points));
    let void = corners(m0, 0.0, m1, key.depth);
    let cut = Part {
        role: 'C',
        sweep: Sweep::Milled { width: 0.004 },
        ..solid(body, polygon(&void))
    };
    Keystick {
        part: solid(body, outline),
        cut,
        under: leaving[1],
        before: leaving[3],
    }
}

/// A strip of cloth on a rail, its two upper edges rounded. Segments: 0
/// bottom, 1 front, 2 arc, 3 top, 4 arc, 5 back.
pub fn cloth(x0: f64, x1: f64, bottom: f64, top: f64, edge: f64) -> Part {
    let points = [
        ((x0, bottom), 0.0),
        ((x1, bottom), 0.0),
        ((x1, top), edge),
        ((x0, top), edge),
    ];
    Part {
        role: 'L',
        ..solid(0, chain(&rounded(&points)))
    }
}

/// A washer about a vertical axis; its silhouette's top is segments 2 to 4.
pub fn punching(axis: f64, hole: f64, radius: f64, bottom: f64, top: f64) -> Part {
    Part {
        role: 'L',
        sweep: Sweep::Revolved { axis },
        ..solid(0, polygon(&corners(hole, bottom, radius, top)))
    }
}

/// A pin with a round tip. Segments: 0 foot, 1 front side, 2 tip, 3 back
/// side.
pub fn pin(x: f64, radius: f64, foot: f64, tip: f64) -> Part {
    let elements = [
        Element::Corner((x - radius, foot)),
        Element::Corner((x + radius, foot)),
        Element::Arc {
            c: (x, tip - radius),
            r: radius,
            from: (1.0, 0.0),
            to: (-1.0, 0.0),
        },
    ];
    Part {
        sweep: Sweep::Oval { width: 0.003 },
        ..solid(0, chain(&elements))
    }
}

/// Hangs the key from a hinge on a slide, both driven by one coordinate.
fn hang_by_one(sheet: &mut Sheet, pivot: Two, angle: f64) -> usize {
    let coord = sheet.coordinate(angle);
    let joint = Joint::Slide {
        coord,
        origin: (pivot.0, pivot.1 - angle),
        axis: (0.0, 1.0),
    };
    let slide = sheet.body(0, joint);
    let pivot = (0.0, 0.0);
    sheet.body(slide, Joint::Hinge { coord, pivot })
}

/// Hangs the key: from a hinge, a hinge on a slide, through a body of joint
/// G, or through two joints driven by one coordinate.
fn hang(rng: &mut Rng, sheet: &mut Sheet, pivot: Two, angle: f64) -> usize {
    if rng.once_in(4) {
        let idle = rng.noise(1.0);
        sheet.coordinate(idle);
    }
    match rng.below(6) {
        0 => sheet.hinge(0, pivot, angle),
        1 => {
            let plate = sheet.body(0, Joint::Ground);
            sheet.hinge(plate, pivot, angle)
        }
        2 => {
            let coord = sheet.coordinate(0.5 * angle);
            let first = sheet.body(0, Joint::Hinge { coord, pivot });
            let pivot = (rng.noise(1e-3), 0.0);
            sheet.body(first, Joint::Hinge { coord, pivot })
        }
        3 => hang_by_one(sheet, pivot, angle),
        _ => {
            let lift = rng.noise(1e-3);
            let slide = sheet.slide(0, (pivot.0, pivot.1 - lift), (0.0, 1.0), lift);
            sheet.hinge(slide, (0.0, 0.0), angle)
        }
    }
}

fn some_key(rng: &mut Rng) -> Key {
    let mouth = rng.range(0.10, 0.12);
    Key {
        tail: -rng.about(0.2),
        front: rng.range(0.135, 0.16),
        height: rng.about(0.02),
        chamfer: rng.about(0.004),
        edge: rng.pick(&[0.0, 0.0, 0.0005, 0.0005, 0.001]),
        mortise: (mouth, mouth + rng.about(0.012)),
        depth: rng.about(0.014),
    }
}

/// A key over a back rail cloth, two punchings and a front pin, near
/// touching at the back or at the front.
pub fn key_over_rails(rng: &mut Rng) -> Sheet {
    let key = some_key(rng);
    let height = rng.about(0.02);
    let at_back = rng.once_in(2);
    let (lever, level) = if at_back {
        (key.tail + 0.025, height + rng.about(0.002))
    } else {
        (key.front - 0.02, height - rng.about(0.009))
    };
    let angle = (level - height + rng.noise(2e-3)) / lever;
    let (back, front) = if at_back {
        (level, height - 0.009)
    } else {
        (height + 0.002, level)
    };
    let mut sheet = Sheet::default();
    let body = hang(rng, &mut sheet, (0.0, height), angle);
    let parts = keystick(&key, body);
    let (under, before) = (parts.under, parts.before);
    let x = key.tail + rng.about(0.01);
    let rails = [
        cloth(x, x + 0.024, back - 0.005, back, 0.0005),
        punching(0.0, 0.002, 0.01, height - 0.004, height),
        punching(key.front - 0.02, 0.002, 0.009, front - 0.005, front),
        pin(
            0.5 * (key.mortise.0 + key.mortise.1) + rng.noise(6e-3),
            0.0015,
            front - 0.01,
            height + key.depth + level - height - 0.002 + rng.noise(3e-3),
        ),
    ];
    sheet.parts = vec![parts.part, parts.cut];
    sheet.parts.extend(rails);
    sheet.margin = rng.pick(&[1e-3, 1e-3, 2.5e-3, 0.01, f64::INFINITY]);
    add_pairs(rng, &mut sheet, under, before);
    sheet
}

/// Adds one to four of a key's pairs.
fn add_pairs(rng: &mut Rng, sheet: &mut Sheet, under: usize, before: usize) {
    let (low, high) = (under.saturating_sub(1), under + 1);
    let whole = [(0, low, high)];
    let joined = [(0, under, high), (1, 1, 4), (0, before, before + 1)];
    let walls = [(1, 1, 2), (1, 3, 4)];
    let all: [(bool, &[Range], &[Range]); 8] = [
        (true, &whole, &[(3, 2, 4)]),
        (false, &whole, &[(2, 2, 5)]),
        (false, &whole, &[(2, 3, 4)]),
        (true, &[(0, before, before + 2)], &[(4, 2, 4)]),
        (false, &[(0, before, before + 2)], &[(4, 1, 5)]),
        (false, &[(1, 2, 3)], &[(5, 2, 3)]),
        (false, &joined, &[(5, 1, 4)]),
        (false, &walls, &[(5, 1, 4)]),
    ];
    for _ in 0..rng.between(1, 4) {
        let (centered, a, b) = rng.pick(&all);
        if rng.once_in(12) {
            sheet.pair(centered, b, a);
        } else {
            sheet.pair(centered, a, b);
        }
    }
}

/// A revolved punching with a rounded or sharp rim under a tilted block.
pub fn block_on_punching(rng: &mut Rng) -> Sheet {
    let mut sheet = Sheet::default();
    let (somewhere, high) = (rng.range(-0.1, 0.1), rng.about(0.005));
    let axis = rng.pick(&[0.0, -0.0, 0.125, somewhere]);
    let (radius, top) = (rng.about(0.01), rng.pick(&[0.0, 0.005, high]));
    let rim = rng.pick(&[0.0, 0.0005, 0.001]);
    let profile = [
        ((0.002, top - 0.005), 0.0),
        ((radius, top - 0.005), 0.0),
        ((radius, top), rim),
        ((0.002, top), 0.0),
    ];
    let (outline, leaving) = chain_with_places(&rounded(&profile));
    let flat = leaving[2];
    let washer = Part {
        role: 'L',
        sweep: Sweep::Revolved { axis },
        ..solid(0, outline)
    };
    let angle = rng.noise(0.1);
    let pivot = (axis + rng.noise(0.02), top + rng.noise(2e-3));
    let body = hang(rng, &mut sheet, pivot, angle);
    let (left, right) = (-rng.about(0.02), rng.about(0.02));
    sheet.part(solid(body, polygon(&corners(left, 0.0, right, 0.015))));
    sheet.part(washer);
    let first = if rim > 0.0 { flat - 1 } else { flat };
    let past = first + 2 * (flat + 1 - first);
    sheet.pair(true, &[(0, 0, 1)], &[(1, flat, flat + 2)]);
    sheet.pair(false, &[(0, 3, 4), (0, 0, 2)], &[(1, first, past)]);
    if rng.once_in(3) {
        sheet.pair(true, &[(0, 0, 4)], &[(1, first, past)]);
    }
    sheet.margin = rng.pick(&[1e-3, 0.01, f64::INFINITY, f64::NAN]);
    sheet
}

/// Wood with a mouth of the given half width in its lower side.
fn mouthed_wood(half: f64) -> Vec<Seg> {
    polygon(&[
        (-0.03, 0.0),
        (-half, 0.0),
        (half, 0.0),
        (0.03, 0.0),
        (0.03, 0.02),
        (-0.03, 0.02),
    ])
}

/// A mortise with sharp or rounded inner corners, in the section or beside
/// it, and the numbers of its right wall, its top and its left wall.
fn mortise(rng: &mut Rng, body: usize, half: f64, depth: f64) -> (Part, [usize; 3]) {
    let r = rng.pick(&[0.0, 0.001, 0.002]);
    let void = [
        ((-half, 0.0), 0.0),
        ((half, 0.0), 0.0),
        ((half, depth), r),
        ((-half, depth), r),
    ];
    let (void, leaving) = chain_with_places(&rounded(&void));
    let beside = Sweep::Extruded {
        width: 0.004,
        across: 0.002,
    };
    let milled = Sweep::Milled { width: 0.004 };
    let cut = Part {
        role: 'C',
        sweep: if rng.once_in(6) { beside } else { milled },
        ..solid(body, void)
    };
    (cut, [leaving[1], leaving[2], leaving[3]])
}

/// A pin in a mortise whose mouth is a segment of the wood's outline, with
/// cloth in the section or beside it.
pub fn pin_in_mortise(rng: &mut Rng) -> Sheet {
    let mut sheet = Sheet::default();
    let (half, depth) = (rng.about(0.006), rng.about(0.014));
    let angle = rng.noise(0.2);
    let pivot = (0.0, rng.noise(2e-3));
    let body = hang(rng, &mut sheet, pivot, angle);
    sheet.part(solid(body, mouthed_wood(half)));
    let (cut, [right, top, left]) = mortise(rng, body, half, depth);
    sheet.part(cut);
    let tip = depth + rng.pick(&[-0.002, 0.0, 0.0, 0.001, -0.02]) + rng.noise(2e-3);
    sheet.part(pin(rng.noise(2.0 * half), 0.0015, -0.02, tip));
    let lining = Part {
        role: 'L',
        sweep: Sweep::Extruded {
            width: 0.001,
            across: rng.pick(&[0.0, 0.0005, 0.000499, 0.002, -0.002]),
        },
        ..solid(body, polygon(&corners(half - 0.001, 0.002, half, depth)))
    };
    sheet.part(lining);
    let tip = [(2, 1, 4)];
    sheet.pair(false, &[(1, top, top + 1)], &[(2, 2, 3)]);
    sheet.pair(false, &[(0, 0, 1), (1, right, left + 1), (0, 2, 3)], &tip);
    if rng.once_in(2) {
        sheet.pair(false, &[(3, 0, 4)], &tip);
    }
    sheet.margin = rng.pick(&[1e-3, 3e-3, f64::INFINITY]);
    sheet
}
