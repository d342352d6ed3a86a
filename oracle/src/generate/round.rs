//! Arcs against arcs, arcs over half a turn, arcs at the edge of their
//! sector, and turned parts with slanted rims.

use crate::grid::strip;
use crate::outline::{around, chain, chain_with_places, corners, polygon, rounded, Element};
use crate::random::Rng;
use crate::sheet::{solid, Part, Seg, Sheet, Sweep, Two};

/// An arc about a centre from one turn to another, closed by its chord or
/// through its centre.
fn pie(c: Two, r: f64, from: f64, to: f64, through_center: bool) -> Vec<Seg> {
    let mut elements = vec![Element::Arc {
        c,
        r,
        from: around(from),
        to: around(to),
    }];
    if through_center {
        elements.push(Element::Corner(c));
    }
    chain(&elements)
}

/// Two rounds near each other or one in the other, their arcs from little to
/// almost a whole turn.
pub fn round_on_round(rng: &mut Rng) -> Sheet {
    let mut sheet = Sheet::default();
    let (r, s) = (rng.range(0.3, 1.0), rng.range(0.3, 1.0));
    let toward = rng.unit();
    let d = around(toward);
    let near = 1.0 + rng.noise(0.1);
    let far = (r + s) * rng.pick(&[1.0, near, 0.5, 0.2, 1.5]);
    let body = sheet.hinge(0, (far * d.0, far * d.1), rng.noise(0.5));
    let (wide, narrow) = (rng.range(0.1, 0.48), rng.range(0.05, 0.3));
    let (u, v) = (rng.once_in(2), rng.once_in(2));
    sheet.part(solid(0, pie((0.0, 0.0), r, toward - wide, toward + wide, u)));
    let back = toward + 0.5;
    sheet.part(solid(body, pie((0.0, 0.0), s, back - narrow, back + wide, v)));
    let counts = [sheet.parts[0].outline.len(), sheet.parts[1].outline.len()];
    let (a, b) = ((1, 0, counts[1]), (0, 0, counts[0]));
    sheet.pair(false, &[a], &[b]);
    sheet.pair(rng.once_in(2), &[b], &[(1, 0, 1)]);
    sheet.margin = rng.pick(&[f64::INFINITY, 0.1, 0.01]);
    sheet
}

/// An arc whose sector ends `k` units in the last place before or after the
/// direction in which it touches a level face: under, over and at half a
/// turn, and narrower than the slack.
pub fn sector_edge(rng: &mut Rng) -> Sheet {
    let mut sheet = Sheet::default();
    let k = rng.pick(&[-9.0, -1.0, 0.0, 1.0, 3.0, 5.0, 7.0, 8.0, 9.0, 16.0]) * f64::EPSILON;
    let (from, to): (Two, Two) = match rng.below(6) {
        0 => ((k, -1.0), (1.0, 0.0)),
        1 => ((-1.0, 0.0), (-k, -1.0)),
        2 => ((k, -1.0), (-k, 1.0)),
        3 => ((1.0, 0.0), (-k, -1.0)),
        4 => ((k, -1.0), (-1.0, 0.0)),
        _ => ((0.0, 1.0), (-k, 1.0)),
    };
    let c = (0.0, rng.pick(&[0.5, 0.25, 0.75]));
    let corner = Element::Corner((rng.pick(&[0.0, 0.125]), 2.0));
    let round = chain(&[Element::Arc { c, r: 0.5, from, to }, corner]);
    let count = round.len();
    let lift = rng.pick(&[0.0, 0.25]);
    let body = sheet.slide(0, (0.0, 0.0), (0.0, 1.0), lift);
    sheet.part(solid(body, round));
    sheet.part(solid(0, polygon(&corners(-1.0, -1.0, 1.0, 0.0))));
    sheet.pair(false, &[(0, 0, count)], &[(1, 2, 3)]);
    sheet.pair(false, &[(1, 0, 4)], &[(0, 0, 1)]);
    sheet.margin = f64::INFINITY;
    sheet
}

/// A turned part with a slanted, rounded rim and a flat, conical or dented
/// top, touched by a block on either side of its axis; its ranges at times
/// parted at the axis.
pub fn turned_rim(rng: &mut Rng) -> Sheet {
    let mut sheet = Sheet::default();
    let (radius, top) = (rng.range(0.5, 1.0), rng.range(0.2, 0.6));
    let hole = rng.pick(&[0.0, -0.0, 0.1]);
    let apex = top + rng.pick(&[0.0, 0.2, 0.1, -0.1]);
    let rim = rng.pick(&[0.0, 0.05, 0.1 * radius, 0.2 * radius]);
    let profile = [
        ((hole, 0.0), 0.0),
        ((radius, 0.0), 0.0),
        ((radius * 1.2, 0.5 * top), 0.0),
        ((radius, top), rim),
        ((hole, apex), 0.0),
    ];
    let (outline, leaving) = chain_with_places(&rounded(&profile));
    let axis = rng.pick(&[0.0, -0.0, -0.0, 0.3]);
    let turned = Part {
        sweep: Sweep::Revolved { axis },
        ..solid(0, outline)
    };
    let (flat, first) = (leaving[3], leaving[2]);
    let (side, level) = rng.pick(&[(-1.0, top), (-1.0, top), (0.0, apex), (1.0, top)]);
    let angle = rng.noise(0.2) - side * rng.range(0.2, 1.0);
    let pivot = (axis + side * radius, level + rng.noise(0.05));
    let body = sheet.hinge(0, pivot, angle);
    let (left, right) = (rng.range(-1.0, -0.1), rng.range(0.1, 1.0));
    sheet.part(solid(body, polygon(&corners(left, 0.0, right, 0.5))));
    sheet.part(turned);
    let past = 2 * (flat + 1) - first;
    let whole = vec![(1, first, past)];
    let parted = vec![(1, first, flat + 1), (1, flat + 1, past)];
    let b = if rng.once_in(2) { whole } else { parted };
    sheet.pair(false, &[(0, 0, rng.pick(&[1, 4]))], &b);
    sheet.pair(true, &[(0, 0, 4)], &b);
    sheet.margin = f64::INFINITY;
    sheet
}

/// A turned part whose profile meets its axis in the middle, read at its
/// centre.
pub fn waisted(rng: &mut Rng) -> Sheet {
    let mut sheet = Sheet::default();
    let waist = rng.pick(&[0.0, -0.0, 0.1]);
    let profile = [
        (0.0, 0.0),
        (1.0, 0.0),
        (waist, rng.pick(&[0.25, 0.5])),
        (1.0, 0.75),
        (0.0, rng.pick(&[1.0, 0.75])),
    ];
    let axis = rng.pick(&[0.0, -0.0, 0.5]);
    let part = Part {
        sweep: Sweep::Revolved { axis },
        ..solid(0, polygon(&profile))
    };
    let body = sheet.slide(0, (0.0, 1.0), (0.0, 1.0), rng.pick(&[0.0, 0.25, -0.25, -0.75]));
    sheet.part(solid(body, polygon(&corners(-2.0, 0.0, 2.0, 1.0))));
    sheet.part(part);
    let first = rng.below(4);
    let past = rng.between(first + 1, 8);
    sheet.pair(true, &[(0, 0, 1)], &[(1, first, past)]);
    sheet.pair(true, &[(0, 0, 4)], &[(1, 0, rng.pick(&[4, 5, 8]))]);
    sheet.margin = f64::INFINITY;
    sheet
}

/// A round tip sunk into the rounded edge of a strip: the tip's arc reads a
/// face and an edge at once.
pub fn tip_in_edge(rng: &mut Rng) -> Sheet {
    let mut sheet = Sheet::default();
    let r = rng.range(0.1, 0.6);
    let at = (rng.range(0.3, 1.3), rng.range(-0.5, 0.6));
    let body = sheet.hinge(0, at, rng.noise(0.5));
    let tip = chain(&[
        Element::Arc {
            c: (0.0, 0.0),
            r,
            from: (-1.0, rng.pick(&[0.0, 0.5, -0.5])),
            to: (1.0, rng.pick(&[0.0, 0.25])),
        },
        Element::Corner((0.5, 1.5)),
        Element::Corner((-0.5, 1.5)),
    ]);
    let count = tip.len();
    sheet.part(solid(body, tip));
    sheet.part(solid(0, strip(-1.0, -1.0, 1.0, 1.0, rng.pick(&[0.25, 0.4]))));
    sheet.pair(false, &[(0, 0, count)], &[(1, 0, 6)]);
    if rng.once_in(2) {
        sheet.pair(false, &[(1, 1, 5)], &[(0, 0, 2)]);
    }
    sheet.margin = rng.pick(&[f64::INFINITY, f64::INFINITY, 0.0, -0.1]);
    sheet
}

/// Two rounds one above the other whose radii may be negative and so large
/// that the gap overflows.
pub fn negative_radii(rng: &mut Rng) -> Sheet {
    let mut sheet = Sheet::default();
    let radii = [-1e308, -1.7e308, -1e308, 0.25, -0.25, 1e308, 0.0, -0.0];
    let round = |r: f64, from: Two, to: Two| {
        chain(&[
            Element::Arc {
                c: (0.0, 0.0),
                r,
                from,
                to,
            },
            Element::Corner((0.0, from.0)),
        ])
    };
    let (x, y) = rng.pick(&[(0.0, 1.0), (0.0, 1.0), (0.25, 1.0), (0.0, 0.0)]);
    let body = sheet.hinge(0, (x, y), 0.0);
    let (left, right) = ((-1.0, 0.0), (1.0, 0.0));
    sheet.part(solid(body, round(rng.pick(&radii), left, right)));
    sheet.part(solid(0, round(rng.pick(&radii), right, left)));
    let (n, m) = (sheet.parts[0].outline.len(), sheet.parts[1].outline.len());
    sheet.pair(false, &[(0, 0, n)], &[(1, 0, m)]);
    sheet.pair(true, &[(1, 0, m)], &[(0, 0, n)]);
    sheet.margin = f64::INFINITY;
    sheet
}

/// A turned part with an arc about a point of its axis, touched on either
/// side by a block turned to face it.
pub fn ball(rng: &mut Rng) -> Sheet {
    let mut sheet = Sheet::default();
    let r = rng.range(0.5, 1.0);
    let profile = chain(&[
        Element::Corner((0.0, 0.0)),
        Element::Arc {
            c: (0.0, 1.0),
            r,
            from: (rng.range(0.5, 1.0), -rng.range(0.1, 1.0)),
            to: (rng.range(0.2, 1.0), rng.range(0.3, 1.0)),
        },
        Element::Corner((0.0, 2.0)),
    ]);
    let axis = rng.pick(&[0.0, -0.0, 0.25]);
    let angle = rng.pick(&[1.0, 1.0, -1.0]) * rng.range(0.1, 1.5);
    let far = r + rng.noise(0.2);
    let pivot = (
        axis - far * crate::sine(angle),
        1.0 + far * crate::cosine(angle),
    );
    let body = sheet.hinge(0, pivot, angle);
    let (left, right) = (rng.range(-1.0, -0.1), rng.range(0.1, 1.0));
    sheet.part(solid(body, polygon(&corners(left, 0.0, right, 0.5))));
    sheet.part(Part {
        sweep: Sweep::Revolved { axis },
        ..solid(0, profile)
    });
    sheet.pair(false, &[(0, 0, 1)], &[(1, 0, 6)]);
    sheet.pair(false, &[(1, 3, 6)], &[(0, 0, 4)]);
    sheet.pair(true, &[(0, 0, 4)], &[(1, 3, 5)]);
    sheet.margin = f64::INFINITY;
    sheet
}
