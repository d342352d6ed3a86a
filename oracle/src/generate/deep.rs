//! Parts sunk far into one another, with many deep candidates of one corner.

use crate::grid::{next_larger, next_smaller};
use crate::outline::{around, corners, polygon, star, with_arcs};
use crate::random::Rng;
use crate::sheet::{solid, Part, Sheet, Sweep};
use crate::shapes::cut_at;

/// A polygon of many faces inside another, whole silhouettes or runs of up
/// to six segments, at times with a cut.
pub fn sunk(rng: &mut Rng) -> Sheet {
    let mut sheet = Sheet::default();
    let (n, m) = (rng.between(3, 6), rng.between(3, 6));
    let offset = around(rng.unit());
    let far = rng.range(0.0, 0.9);
    let angle = rng.range(-3.0, 3.0);
    let body = sheet.hinge(0, (far * offset.0, far * offset.1), angle);
    let often = rng.pick(&[4, 100]);
    let outer = star(rng, n, (0.0, 0.0), 1.0, 0.8);
    let radius = rng.pick(&[0.3, 0.8, 1.2]);
    let inner = star(rng, m, (0.0, 0.0), radius, 0.6);
    let outer = with_arcs(rng, &outer, 0.1, often);
    let inner = with_arcs(rng, &inner, 0.1, often);
    let line = rng.below(outer.len());
    let (outer_count, inner_count) = (outer.len().min(6), inner.len().min(6));
    let cut = cut_at(rng, 0, &outer, line).filter(|_| rng.once_in(2));
    sheet.part(solid(0, outer));
    sheet.part(solid(body, inner));
    sheet.parts.extend(cut);
    let pair = [(1, 0, inner_count)];
    sheet.pair(rng.once_in(4), &pair, &[(0, 0, outer_count)]);
    if rng.once_in(2) {
        sheet.pair(rng.once_in(4), &[(0, 0, outer_count.min(3))], &pair);
    }
    sheet.margin = rng.pick(&[f64::INFINITY, 0.0, -0.001, -0.2, -0.3, -0.5, 0.1, f64::NAN]);
    sheet
}

/// A corner sunk into a corner: two faces read it, at depths that tie, stand
/// at the row margin or beside it; margins between the two.
pub fn corner_in_corner(rng: &mut Rng) -> Sheet {
    let mut sheet = Sheet::default();
    let depths = [
        -0.001,
        -0.001,
        next_larger(-0.001),
        next_smaller(-0.001),
        -0.0005,
        -0.002,
        -0.25,
        -0.25,
        -0.5,
        0.0,
        -0.0,
        0.125,
    ];
    let (x, y) = (rng.pick(&depths), rng.pick(&depths));
    let across = sheet.slide(0, (0.0, 0.0), (1.0, 0.0), x);
    let body = sheet.slide(across, (0.0, 0.0), (0.0, 1.0), y);
    sheet.part(solid(body, polygon(&corners(0.0, 0.0, 1.0, 1.0))));
    let stop = corners(rng.pick(&[-1.0, -0.25, -0.0005]), -1.0, 0.0, 0.0);
    sheet.part(solid(0, polygon(&stop)));
    let a = [(0, 0, 4)];
    let b = rng.pick(&[[(1, 0, 4)], [(1, 1, 3)], [(1, 1, 2)]]);
    if rng.once_in(3) {
        sheet.pair(false, &b, &a);
    } else {
        sheet.pair(false, &a, &b);
    }
    let between = 0.5 * (x + y);
    sheet.margin = rng.pick(&[f64::INFINITY, between, between, 0.0, -0.001, -0.0005]);
    sheet
}

/// A pin of several ranges driven through thin plates: deep readings that
/// the material does not hold.
pub fn driven_through(rng: &mut Rng) -> Sheet {
    let mut sheet = Sheet::default();
    let axis = rng.pick(&[(0.0, 1.0), (0.1, 1.0), (1.0, 0.2)]);
    let level = 0.5 + 0.3 * rng.below(3) as f64 + rng.noise(0.02);
    let travel = rng.pick(&[level, level, level - 1.0, level - 0.5]);
    let body = sheet.slide(0, (rng.noise(0.3), 0.0), axis, travel);
    let half = rng.pick(&[0.05, 0.1, 0.3]);
    sheet.part(solid(body, polygon(&corners(-half, -0.5, half, 0.5))));
    let plates = rng.between(1, 3);
    for k in 0..plates {
        let y = k as f64 * 0.3;
        let thick = rng.pick(&[0.0005, 0.002, 0.1]);
        sheet.part(solid(0, polygon(&corners(-1.0, y, 1.0, y + thick))));
    }
    let hole = Part {
        role: 'C',
        sweep: Sweep::Milled { width: 0.1 },
        ..solid(0, polygon(&corners(-0.2, 0.0, 0.2, rng.pick(&[0.1, 0.002]))))
    };
    if rng.once_in(2) {
        sheet.part(hole);
    }
    let sides: Vec<_> = (1..=plates).map(|k| (k, 0, 4)).collect();
    sheet.pair(false, &[(0, 0, 4)], &sides[..plates.min(2)]);
    if rng.once_in(2) {
        sheet.pair(rng.once_in(2), &sides[..1], &[(0, 0, 2)]);
    }
    sheet.margin = rng.pick(&[f64::INFINITY, f64::INFINITY, 0.0, 1e-3]);
    sheet
}

/// A thin plate with a mouth in its lower side and a pin through it; the cut
/// at the mouth in the section or beside it, run either way, on the plate's
/// body or on the pin's.
pub fn thin_plate(rng: &mut Rng) -> Sheet {
    let mut sheet = Sheet::default();
    let body = sheet.slide(0, (rng.noise(0.1), 0.0), (0.0, 1.0), rng.noise(0.3));
    let half = rng.pick(&[0.1, 0.3]);
    sheet.part(solid(body, polygon(&corners(-half, -0.5, half, 0.5))));
    let (m, t) = (rng.range(0.15, 0.25), rng.pick(&[0.01, 0.05]));
    let plate = [(-1.0, 0.0), (-m, 0.0), (m, 0.0), (1.0, 0.0), (1.0, t), (-1.0, t)];
    sheet.part(solid(0, polygon(&plate)));
    let depth = rng.pick(&[t, 0.5 * t, -t]);
    let (low, high) = (rng.pick(&[(-m, m), (m, -m)]), depth);
    let void = [(low.0, 0.0), (low.1, 0.0), (low.1, high), (low.0, high)];
    let across = rng.pick(&[0.0, 0.5, 0.4999]);
    sheet.part(Part {
        role: 'C',
        sweep: Sweep::Extruded { width: 1.0, across },
        ..solid(rng.pick(&[0, 0, body]), polygon(&void))
    });
    sheet.pair(false, &[(0, 0, 4)], &[(1, 0, 3)]);
    sheet.pair(rng.once_in(2), &[(1, 0, 5)], &[(0, 0, 2)]);
    sheet.margin = rng.pick(&[f64::INFINITY, 1e-3]);
    sheet
}
