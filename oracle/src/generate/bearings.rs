//! A key's face over a stop: flat, on the stop's edge, on the key's corner;
//! slopes at the limit of flat, no slope, no bearing, faces without placed
//! length.

use crate::grid::{next_larger, next_smaller, strip};
use crate::outline::{chain, corners, polygon, Element};
use crate::random::Rng;
use crate::sheet::{solid, Seg, Sheet, Two};

/// A face from (-2,0) that rises by `rise` over its length of 4, with a back
/// above it.
fn key_face(rise: f64) -> Vec<Seg> {
    polygon(&[(-2.0, 0.0), (2.0, rise), (2.0, 1.0), (-2.0, 1.0)])
}

/// Slopes round the limit at which a face of length 1 counts as flat.
fn some_slope(rng: &mut Rng) -> f64 {
    let limit = 2.5e-6;
    rng.pick(&[
        0.0,
        -0.0,
        -0.0,
        -0.0,
        limit,
        next_larger(limit),
        next_smaller(limit),
        -limit,
        1.25e-6,
        5e-6,
        0.1,
        -0.3,
    ])
}

/// A key face over a stop of one straight top, the slope at the limit.
pub fn flat(rng: &mut Rng) -> Sheet {
    let mut sheet = Sheet::default();
    let lift = rng.pick(&[0.0, 0.0, 1e-4, -1e-4, 0.01, -0.0005]);
    let body = sheet.slide(0, (0.0, 0.0), (0.0, 1.0), lift);
    let slope = some_slope(rng);
    sheet.part(solid(body, key_face(4.0 * slope)));
    let half = rng.pick(&[0.5, 0.5, 0.25, 1.0, 2.0, 2.5]);
    let stop = if rng.once_in(2) {
        polygon(&corners(-half, -1.0, half, 0.0))
    } else {
        let r = 0.125;
        strip(-half - r, -1.0, half + r, 1.0, r)
    };
    let (count, top) = (stop.len(), if stop.len() > 4 { 3 } else { 2 });
    sheet.part(solid(0, stop));
    let range = match rng.below(5) {
        0 => (1, top, top + 1),
        1 => (1, top - 1, top),
        2 => (1, top - 1, top + 1),
        _ => (1, 0, count),
    };
    sheet.pair(false, &[(0, 0, rng.pick(&[1, 4]))], &[range]);
    sheet.margin = rng.pick(&[1e-3, 1.0, f64::INFINITY, f64::INFINITY]);
    sheet
}

/// A key on a hinge over a cloth with edges of half a millimetre, tilted
/// little.
pub fn tilted(rng: &mut Rng) -> Sheet {
    let mut sheet = Sheet::default();
    let angle = rng.pick(&[0.0, 1e-7, 5e-5, 1.04e-4, -1.04e-4, 1e-3, -0.02, 0.3]);
    let about = rng.range(0.9, 1.1);
    let angle = angle * rng.pick(&[1.0, 1.0, about]);
    let lift = rng.pick(&[0.0, 1e-5, -1e-5, 5e-4]);
    let body = sheet.hinge(0, (rng.noise(0.01), lift), angle);
    let under = polygon(&corners(-rng.about(0.05), 0.0, rng.about(0.05), 0.02));
    sheet.part(solid(body, under));
    let x = rng.pick(&[-0.012, -0.012, 0.03, -0.06]);
    sheet.part(solid(0, strip(x, -0.005, 0.012, 0.005, 0.0005)));
    let a = rng.pick(&[(0, 0, 1), (0, 0, 4), (0, 3, 4)]);
    let b = rng.pick(&[(1, 2, 5), (1, 0, 6), (1, 3, 4), (1, 2, 3)]);
    sheet.pair(false, &[a], &[b]);
    sheet.pair(rng.once_in(2), &[b], &[a]);
    sheet.margin = rng.pick(&[1e-3, 0.01, f64::INFINITY]);
    sheet
}

/// A key's corner on a stop, one or both of the corner's faces in the range.
pub fn key_corner(rng: &mut Rng) -> Sheet {
    let mut sheet = Sheet::default();
    let angle = rng.range(-0.5, 0.5);
    let body = sheet.hinge(0, (rng.noise(0.5), 0.5 + rng.noise(1e-2)), angle);
    let key = polygon(&[(0.0, -0.5), (1.0, 0.5), (-1.0, rng.range(0.0, 1.0))]);
    sheet.part(solid(body, key));
    let stop = if rng.once_in(2) {
        polygon(&corners(-1.0, -1.0, 1.0, 0.0))
    } else {
        strip(-1.0, -1.0, 1.0, 1.0, 0.25)
    };
    let count = stop.len();
    sheet.part(solid(0, stop));
    let a = rng.pick(&[(0, 0, 1), (0, 2, 3), (0, 0, 3)]);
    sheet.pair(false, &[a], &[(1, 0, count)]);
    sheet.margin = rng.pick(&[0.01, 1.0, f64::INFINITY]);
    sheet
}

/// A corner with a chamfer so short that its placed ends coincide.
pub fn no_placed_length(rng: &mut Rng) -> Sheet {
    let mut sheet = Sheet::default();
    let tiny = rng.pick(&[1e-18, 1e-17, 1e-30, 1e-150]);
    let lift = rng.pick(&[0.0, 0.25, -1e-4]);
    let body = if rng.once_in(2) {
        sheet.slide(0, (1.0, 1.0), (0.0, 1.0), lift)
    } else {
        sheet.hinge(0, (1.0, 1.0 + lift), rng.range(-0.3, 0.3))
    };
    let key = polygon(&[(0.0, 0.0), (tiny, 0.5 * tiny), (0.5, 0.5), (-0.5, 0.5)]);
    sheet.part(solid(body, key));
    let stop = if rng.once_in(2) {
        polygon(&corners(0.0, 0.0, 2.0, 1.0))
    } else {
        strip(0.0, 0.0, 1.0, 1.0, 0.25)
    };
    let count = stop.len();
    sheet.part(solid(0, stop));
    let a = rng.pick(&[(0, 0, 4), (0, 0, 2), (0, 3, 4)]);
    if rng.once_in(4) {
        sheet.pair(false, &[(1, 0, count)], &[a]);
    } else {
        sheet.pair(false, &[a], &[(1, 0, count)]);
    }
    sheet.margin = f64::INFINITY;
    sheet
}

/// A slanted face and a corner so far away that the gap overflows.
pub fn far_away(rng: &mut Rng) -> Sheet {
    let mut sheet = Sheet::default();
    let far = rng.pick(&[1.7e308, 1.2e308, 1e308, -1.7e308]);
    let mut body = sheet.slide(0, (far, far), (0.0, 1.0), 0.0);
    if rng.once_in(2) {
        body = sheet.hinge(body, (0.0, 0.0), 0.0);
    }
    let s = 0.25;
    let slanted = polygon(&[(s, -s), (-s, s), (-s, -s)]);
    let facing = polygon(&[(-s, s), (s, -s), (s, s)]);
    sheet.part(solid(0, slanted));
    sheet.part(solid(body, facing));
    let r = rng.pick(&[0.25, -0.25, -1e308, 1e308]);
    let round = chain(&[
        Element::Arc {
            c: (0.0, 0.0),
            r,
            from: (-1.0, 1.0),
            to: (1.0, -1.0),
        },
        Element::Corner((s, s)),
    ]);
    sheet.part(solid(body, round));
    sheet.pair(false, &[(0, 0, 3)], &[(1, 0, 3)]);
    sheet.pair(false, &[(2, 0, 3)], &[(0, 0, 3)]);
    sheet.pair(true, &[(0, 0, 1)], &[(1, 0, 3)]);
    sheet.margin = rng.pick(&[f64::INFINITY, f64::NAN, f64::MAX]);
    sheet
}

/// A stop whose corner stands at its body's origin, turned by a lent sine
/// and cosine of any size.
pub fn huge_turn(rng: &mut Rng) -> Sheet {
    let mut sheet = Sheet::default();
    let mut turned = sheet.hinge(0, (0.0, 0.0), 0.0);
    if rng.once_in(3) {
        turned = sheet.slide(turned, (0.0, 0.0), rng.pick(&[(1.0, 1.0), (0.0, 1.0)]), 0.0);
    }
    let sizes = [1e308, -1e308, 1.7e308, 0.0, 1.0, 1e300, -1.7e308, 1e155];
    sheet.entries[0] = (0.0, rng.pick(&sizes), rng.pick(&sizes));
    let corner = rng.pick(&[
        [(0.0, 0.0), (-1.0, -2.0), (1.0, -2.0)],
        [(0.0, 0.0), (-1.0, -1.0), (2.0, -1.0)],
        [(0.0, 0.0), (-1.0, 0.0), (0.0, -1.0)],
    ]);
    let size = rng.pick(&[1.0, 9.3e-156]);
    let stop = corner.map(|(x, y): Two| (x * size, y * size));
    sheet.part(solid(turned, polygon(&stop)));
    let y = rng.pick(&[0.25, -0.0005, 0.0]);
    sheet.part(solid(0, polygon(&corners(-1.0, y, 1.0, y + 1.0))));
    let round = chain(&[
        Element::Arc {
            c: (0.0, y + 0.5),
            r: 0.5,
            from: (-1.0, 0.0),
            to: (1.0, 0.0),
        },
        Element::Corner((0.0, y + 2.0)),
    ]);
    sheet.part(solid(0, round));
    for part in [1, 2] {
        let count = sheet.parts[part].outline.len();
        sheet.pair(false, &[(part, 0, count)], &[(0, 0, 3)]);
        sheet.pair(false, &[(0, 0, 3)], &[(part, 0, count)]);
    }
    sheet.margin = f64::INFINITY;
    sheet
}
