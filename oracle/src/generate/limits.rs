//! Sheets at the limits of document 01's "Size of a sheet", and one above
//! each.

use crate::outline::{around, corners, polygon};
use crate::random::Rng;
use crate::sheet::{solid, Joint, Part, Seg, Sheet};

/// A convex polygon of `n` straight segments about (0, y).
fn round_polygon(n: usize, y: f64) -> Vec<Seg> {
    let points: Vec<_> = (0..n)
        .map(|k| {
            let d = around(k as f64 / n as f64);
            (d.0, d.1 + y)
        })
        .collect();
    polygon(&points)
}

/// Two polygons, one above the other on a slide.
fn two_parts(n: usize, m: usize, gap: f64) -> Sheet {
    let mut sheet = Sheet::default();
    let body = sheet.slide(0, (0.0, 2.0), (0.0, 1.0), gap);
    sheet.part(solid(body, round_polygon(n, 0.0)));
    sheet.part(solid(0, round_polygon(m, 0.0)));
    sheet.margin = f64::INFINITY;
    sheet
}

/// Sixteen bodies with the ground, in a chain or a tree, and sixteen
/// coordinates.
fn many_bodies(rng: &mut Rng) -> Sheet {
    let mut sheet = Sheet::default();
    for k in 0..15 {
        let parent = if rng.once_in(3) { k / 2 } else { k };
        let at = (rng.noise(0.1), 0.05);
        match rng.below(7) {
            0 => sheet.body(parent, Joint::Ground),
            1..=3 => sheet.hinge(parent, at, rng.noise(0.2)),
            _ => sheet.slide(parent, at, (rng.noise(1.0), 1.0), rng.noise(0.2)),
        };
    }
    while sheet.coords < 16 {
        sheet.coordinate(0.25);
    }
    let (near, far) = (rng.between(1, 7), rng.between(8, 15));
    sheet.part(solid(far, polygon(&corners(-1.0, 0.0, 1.0, 1.0))));
    sheet.part(solid(0, polygon(&corners(-1.0, -2.0, 1.0, -1.0))));
    sheet.part(solid(near, polygon(&corners(-0.5, -1.0, 0.5, 0.0))));
    sheet.pair(false, &[(0, 0, 4)], &[(1, 0, 4)]);
    sheet.pair(rng.once_in(2), &[(0, 0, 1)], &[(2, 0, 4)]);
    sheet.margin = f64::INFINITY;
    sheet
}

/// Sixteen pairs of one segment a side.
fn many_pairs(rng: &mut Rng) -> Sheet {
    let mut sheet = two_parts(4, 4, rng.noise(0.5));
    for _ in 0..16 {
        let (i, j) = (rng.below(4), rng.below(4));
        sheet.pair(rng.once_in(3), &[(0, i, i + 1)], &[(1, j, j + 1)]);
    }
    sheet
}

/// Thirty-two parts of twelve segments.
fn many_parts(rng: &mut Rng) -> Sheet {
    let mut sheet = two_parts(12, 12, rng.noise(0.5));
    for _ in 2..32 {
        let part = Part {
            role: rng.pick(&['S', 'L', 'C']),
            ..solid(rng.below(2), round_polygon(12, rng.noise(1.0)))
        };
        sheet.part(part);
    }
    sheet.pair(false, &[(0, 7, 11)], &[(1, 1, 4)]);
    sheet.pair(true, &[(0, 0, 12)], &[(31, 1, 4)]);
    if sheet.parts[31].body == 1 {
        sheet.pairs.pop();
    }
    sheet
}

/// Eight parts of forty-eight segments: 384 in all.
fn long_outlines(rng: &mut Rng) -> Sheet {
    let mut sheet = two_parts(48, 48, rng.noise(0.05));
    for _ in 2..8 {
        sheet.part(solid(rng.below(2), round_polygon(48, rng.noise(1.0))));
    }
    sheet.pair(false, &[(0, 33, 39)], &[(1, 9, 15)]);
    sheet
}

/// Twelve segments a side, in up to four ranges.
fn long_sides(rng: &mut Rng) -> Sheet {
    let mut sheet = two_parts(12, 24, rng.noise(0.2));
    let a = match rng.below(4) {
        0 => vec![(0, 0, 12)],
        1 => vec![(0, 0, 3), (0, 3, 6), (0, 6, 9), (0, 9, 12)],
        2 => vec![(0, 9, 12); 4],
        _ => vec![(0, 9, 12), (0, 0, 9)],
    };
    let j = rng.between(1, 10);
    sheet.pair(false, &a, &[(1, j, j + 1)]);
    sheet.pair(true, &a, &[(1, 0, 12)]);
    sheet
}

/// A sheet whose row bound is 255, 256 or 257.
fn near_row_bound(rng: &mut Rng) -> Sheet {
    let mut sheet = two_parts(16, 16, rng.noise(0.2));
    let mut left = rng.pick(&[255_usize, 256, 257]);
    let bound = |i: usize, j: usize| (i + 1) * j + (j + 1) * i + (i + 1) * (j + 1);
    while left > 100 {
        let (i, j) = (rng.between(1, 4), rng.between(1, 4));
        if bound(i, j) <= left {
            let (a, b) = (9 + rng.below(3), 1 + rng.below(3));
            sheet.pair(false, &[(0, a, a + i)], &[(1, b, b + j)]);
            left -= bound(i, j);
        }
    }
    while left > 0 && sheet.pairs.len() < 16 {
        let faces = left.min(12);
        sheet.pair(true, &[(0, 0, faces)], &[(1, 2, 6)]);
        left -= faces;
    }
    sheet
}

/// A chain of fifteen bodies, hinges and slides in turn, on fifteen of sixteen
/// coordinates.
fn long_chain() -> Sheet {
    let mut sheet = Sheet::default();
    for k in 0..15 {
        let value = 0.015625 * (k as f64 - 7.0);
        if k % 2 == 0 {
            sheet.hinge(k, (0.0, 0.125), value);
        } else {
            sheet.slide(k, (0.125, 0.0), (1.0, 2.0), value);
        }
    }
    sheet.coordinate(0.25);
    sheet
}

/// A sheet at all eight limits, with a row bound of 256: of two pairs of
/// features 72 and 18, of thirteen centre bearings 12 each and of one 10.
pub fn all_limits() -> Sheet {
    let mut sheet = long_chain();
    let sizes = [&[48][..], &[12; 26], &[8], &[4; 4]].concat();
    for (k, &n) in sizes.iter().enumerate() {
        sheet.part(solid(k % 16, round_polygon(n, 0.0)));
    }
    let apart = [(0, 0, 3), (0, 4, 7), (0, 8, 11), (0, 12, 15)];
    sheet.pair(false, &[(15, 7, 8)], &apart);
    sheet.pair(false, &[(9, 8, 9)], &[(2, 1, 4)]);
    let joined = |part, last| [(part, 0, 3), (part, 3, 6), (part, 6, 9), (part, 9, last)];
    for k in 3..17 {
        let last = if k == 3 { 10 } else { 12 };
        sheet.pair(true, &joined(k, last), &joined(k + 9, 12));
    }
    sheet.margin = f64::INFINITY;
    sheet
}

/// A sheet at one of the limits.
pub fn at_limit(rng: &mut Rng) -> Sheet {
    match rng.below(6) {
        0 => many_bodies(rng),
        1 => many_pairs(rng),
        2 => many_parts(rng),
        3 => long_outlines(rng),
        4 => near_row_bound(rng),
        _ => long_sides(rng),
    }
}

/// A sheet one above one of the limits, or with a range that counts too far
/// though its part does not exist.
pub fn one_above(rng: &mut Rng) -> Sheet {
    let which = rng.below(9);
    let mut sheet = match which {
        0 | 1 => many_bodies(rng),
        2 => many_parts(rng),
        3 | 4 => long_outlines(rng),
        5 => many_pairs(rng),
        _ => long_sides(rng),
    };
    match which {
        0 => {
            sheet.body(0, Joint::Ground);
        }
        1 => {
            sheet.coordinate(0.0);
        }
        2 => {
            sheet.parts.remove(2);
            sheet.part(solid(0, round_polygon(8, 0.0)));
            sheet.part(solid(0, round_polygon(4, 0.0)));
        }
        3 => {
            sheet.parts.truncate(4);
            sheet.parts[3].outline = round_polygon(49, 0.0);
        }
        4 => {
            sheet.parts[6].outline = round_polygon(24, 0.0);
            sheet.part(solid(0, round_polygon(25, 0.0)));
        }
        5 => sheet.pair(false, &[(0, 0, 1)], &[(1, 0, 1)]),
        6 => sheet.pairs[0].a = vec![(0, 0, 1); 5],
        7 => sheet.pairs[0].b = vec![(1, 0, 6), (1, 5, 12)],
        _ => sheet.pairs[1].b = vec![(77, 3, 16)],
    }
    sheet
}
