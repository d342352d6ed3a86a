//! Sheets of small dyadic numbers: ties, exact zeros, coincident corners,
//! parallel faces, gaps of exactly 0, -0.0 and -0.001.

use crate::outline::{chain, corners, polygon, Element};
use crate::random::Rng;
use crate::sheet::{solid, Part, Seg, Sheet, Sweep, Two};

const MARGINS: [f64; 16] = [
    0.0,
    -0.0,
    -0.25,
    5e-324,
    f64::INFINITY,
    f64::INFINITY,
    f64::INFINITY,
    f64::INFINITY,
    f64::INFINITY,
    f64::INFINITY,
    2.0,
    f64::NAN,
    f64::NEG_INFINITY,
    1e-3,
    0.25,
    1.0,
];

/// The next double of larger size.
pub fn next_larger(x: f64) -> f64 {
    f64::from_bits(x.to_bits() + 1)
}

/// The next double of smaller size.
pub fn next_smaller(x: f64) -> f64 {
    f64::from_bits(x.to_bits().saturating_sub(1))
}

/// A multiple of a quarter from -2 to 2, at times -0.0.
fn quarter(rng: &mut Rng) -> f64 {
    match rng.below(18) {
        17 => -0.0,
        k => 0.25 * (k as f64 - 8.0),
    }
}

/// An outline on the grid: rectangle, triangle, L, or a strip with rounded
/// edges of dyadic radius.
pub fn shape(rng: &mut Rng) -> Vec<Seg> {
    let (x, y) = (quarter(rng), quarter(rng));
    let (w, h) = (rng.pick(&[0.5, 1.0, 2.0]), rng.pick(&[0.5, 1.0, 0.001]));
    match rng.below(5) {
        0 => polygon(&[(x, y), (x + w, y + h), (x - w, y + h)]),
        1 => polygon(&[
            (x, y),
            (x + 2.0 * w, y),
            (x + 2.0 * w, y + h),
            (x + w, y + h),
            (x + w, y + 2.0 * h),
            (x, y + 2.0 * h),
        ]),
        2 => strip(x, y, w, 1.0, rng.pick(&[0.25, 0.5])),
        _ => polygon(&corners(x, y, x + w, y + h)),
    }
}

/// A rectangle with its two upper edges rounded.
pub fn strip(x: f64, y: f64, w: f64, h: f64, r: f64) -> Vec<Seg> {
    chain(&[
        Element::Corner((x, y)),
        Element::Corner((x + 2.0 * w, y)),
        Element::Arc {
            c: (x + 2.0 * w - r, y + h - r),
            r,
            from: (1.0, 0.0),
            to: (0.0, 1.0),
        },
        Element::Arc {
            c: (x + r, y + h - r),
            r,
            from: (0.0, 1.0),
            to: (-1.0, 0.0),
        },
    ])
}

fn sweep(rng: &mut Rng) -> Sweep {
    match rng.below(10) {
        0 => Sweep::Revolved {
            axis: rng.pick(&[0.0, -0.0, 0.5, -1.0]),
        },
        1 => Sweep::Extruded {
            width: 1.0,
            across: rng.pick(&[0.5, 0.25, -0.5]),
        },
        _ => Sweep::Extruded {
            width: 1.0,
            across: 0.0,
        },
    }
}

fn part(rng: &mut Rng, body: usize) -> Part {
    Part {
        role: rng.pick(&['S', 'S', 'S', 'S', 'L', 'C']),
        sweep: sweep(rng),
        ..solid(body, shape(rng))
    }
}

/// An exact quarter turn, whatever the value says.
fn quarter_turn(rng: &mut Rng) -> (f64, f64, f64) {
    let (sine, cosine) = rng.pick(&[
        (0.0, 1.0),
        (0.0, 1.0),
        (-0.0, 1.0),
        (1.0, 0.0),
        (0.0, -1.0),
        (-1.0, 0.0),
        (0.6, 0.8),
    ]);
    (quarter(rng), sine, cosine)
}

/// Adds a body on the grid: a slide along a grid direction or a hinge
/// turned by quarters.
fn body(rng: &mut Rng, sheet: &mut Sheet) -> usize {
    let at: Two = (quarter(rng), quarter(rng));
    let parent = rng.below(sheet.bodies.len() + 1);
    if rng.once_in(2) {
        let body = sheet.hinge(parent, at, 0.0);
        *sheet.entries.last_mut().expect("just added") = quarter_turn(rng);
        body
    } else {
        let axis = rng.pick(&[(0.0, 1.0), (1.0, 0.0), (0.0, -1.0), (3.0, 4.0), (1.0, 1.0)]);
        let travel = match rng.below(5) {
            0 => rng.pick(&[0.001, -0.001, next_larger(-0.001), next_smaller(-0.001)]),
            _ => quarter(rng),
        };
        let at = if rng.once_in(2) { (0.0, 0.0) } else { at };
        sheet.slide(parent, at, axis, travel)
    }
}

/// Two or three bodies on the grid with a part each, one to three pairs over
/// whole or half silhouettes.
pub fn grid(rng: &mut Rng) -> Sheet {
    let mut sheet = Sheet::default();
    let ground = part(rng, 0);
    sheet.part(ground);
    for _ in 0..rng.between(1, 2) {
        let on = body(rng, &mut sheet);
        let carried = part(rng, on);
        sheet.part(carried);
    }
    let count = sheet.parts.len();
    for _ in 0..rng.between(1, 3) {
        let i = rng.below(count);
        let j = (i + 1 + rng.below(count - 1)) % count;
        let (n, m) = (sheet.parts[i].silhouette_len(), sheet.parts[j].silhouette_len());
        let (n, m) = (n.min(6), m.min(6));
        let first = rng.below(n);
        let a = [(i, first, n)];
        let b = rng.pick(&[(j, 0, m), (j, 0, m), (j, m - 1, m), (j, 0, 1)]);
        sheet.pair(rng.once_in(4), &a, &[b]);
    }
    sheet.margin = rng.pick(&MARGINS);
    if rng.once_in(3) {
        sign_zeros(rng, &mut sheet);
    }
    sheet
}

/// A zero with a sign of its own; any other number as it is.
fn signed(rng: &mut Rng, x: f64) -> f64 {
    if x == 0.0 {
        rng.pick(&[0.0, -0.0])
    } else {
        x
    }
}

/// Gives every zero of a corner between two lines a sign of its own.
fn sign_zeros(rng: &mut Rng, sheet: &mut Sheet) {
    for part in &mut sheet.parts {
        let n = part.outline.len();
        for k in 0..n {
            let next = (k + 1) % n;
            let (Seg::Line { b, .. }, Seg::Line { .. }) = (&part.outline[k], &part.outline[next])
            else {
                continue;
            };
            let corner = (signed(rng, b.0), signed(rng, b.1));
            if let Seg::Line { b, .. } = &mut part.outline[k] {
                *b = corner;
            }
            if let Seg::Line { a, .. } = &mut part.outline[next] {
                *a = corner;
            }
        }
    }
}

/// Travels that are worth being a gap: 0, -0.0, -0.001, its neighbours, and
/// other depths.
fn some_gap(rng: &mut Rng) -> f64 {
    rng.pick(&[
        0.0,
        -0.0,
        0.001,
        -0.001,
        -0.001,
        next_larger(-0.001),
        next_larger(-0.001),
        next_smaller(-0.001),
        -0.002,
        -0.25,
        5e-324,
        -5e-324,
        2.5e-6,
    ])
}

/// A triangle, a round or a rectangle whose lowest point stands at height 0.
fn some_block(rng: &mut Rng) -> Vec<Seg> {
    let x = rng.pick(&[0.0, 0.5, -0.5, -0.0, 2.0]);
    let upper = rng.pick(&[1.0, 0.001, 0.0005, 0.25]);
    match rng.below(3) {
        0 => polygon(&[(x, 0.0), (x + 0.5, upper), (x - 0.5, upper)]),
        1 => chain(&[
            Element::Arc {
                c: (x, 0.25),
                r: 0.25,
                from: (-1.0, 0.0),
                to: (1.0, 0.0),
            },
            Element::Corner((x, 1.0)),
        ]),
        _ => polygon(&corners(x, 0.0, x + 0.5, upper)),
    }
}

/// A block over a block by a slide whose travel is the gap.
pub fn exact_gap(rng: &mut Rng) -> Sheet {
    let mut sheet = Sheet::default();
    let gap = some_gap(rng);
    let body = sheet.slide(0, (0.0, 0.0), (0.0, 1.0), gap);
    let block = some_block(rng);
    let count = block.len();
    sheet.part(solid(body, block));
    let lower = if rng.once_in(2) {
        strip(-1.0, -1.0, 1.0, 1.0, 0.25)
    } else {
        polygon(&corners(-1.0, rng.pick(&[-1.0, -0.001, -0.0005]), 1.0, 0.0))
    };
    let stop = lower.len();
    sheet.part(solid(0, lower));
    let a = [(0, 0, count)];
    let b = [(1, 0, stop)];
    if rng.once_in(3) {
        sheet.pair(false, &b, &a);
    } else {
        sheet.pair(rng.once_in(4), &a, &b);
    }
    sheet.margin = rng.pick(&MARGINS);
    if rng.once_in(2) {
        sign_zeros(rng, &mut sheet);
    }
    sheet
}

/// A centre a quarter deep in a block of which another side stands nearer,
/// by the row margin exactly or by its neighbours.
pub fn deep_centre(rng: &mut Rng) -> Sheet {
    let mut sheet = Sheet::default();
    let gap = rng.pick(&[-0.25, -0.25, -0.002, -0.001, -0.5]);
    let body = sheet.slide(0, (0.0, 0.0), (0.0, 1.0), gap);
    let near = -gap - 0.001;
    let near = rng.pick(&[near, near, next_larger(near), next_smaller(near), 2.0 * near, 0.1]);
    let block = corners(-1.0, 0.0, 1.0, -gap + near);
    sheet.part(solid(body, polygon(&block)));
    let x = rng.pick(&[0.0, 0.0, 0.5, 1.0 - near, 2.0]);
    sheet.part(solid(0, polygon(&corners(x - 0.125, -1.0, x + 0.125, 0.0))));
    let hole = Part {
        role: 'C',
        ..solid(body, polygon(&corners(-0.5, 0.0, 0.5, 0.125)))
    };
    if rng.once_in(3) {
        sheet.part(hole);
    }
    let faces = rng.pick(&[(0, 0, 1), (0, 0, 4), (0, 1, 3)]);
    sheet.pair(true, &[faces], &[(1, 2, 3)]);
    sheet.margin = rng.pick(&[f64::INFINITY, 0.0, f64::NAN]);
    sheet
}
