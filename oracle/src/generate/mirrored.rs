//! Turned parts about an axis of -0.0, as drawings have them that were
//! mirrored before export: their halves meet on the axis in corners, arcs and
//! joined ranges.

use crate::outline::{chain, corners, polygon, Element};
use crate::random::Rng;
use crate::sheet::{solid, Part, Range, Seg, Sheet, Sweep, Two};

/// A profile and the heights at which its two ends meet the axis.
struct Profile {
    outline: Vec<Seg>,
    low: f64,
    high: f64,
}

/// The abscissa of a profile's point on the axis or at a hole.
fn inner(rng: &mut Rng) -> f64 {
    rng.pick(&[0.0, 0.0, -0.0, 0.125])
}

/// Straight sides, flat, conical or dented ends, at times a waist on the axis.
fn straight(rng: &mut Rng) -> Profile {
    let radius = rng.range(0.5, 1.0);
    let (low, high) = (
        rng.pick(&[0.0, -0.25, -0.1, 0.1]),
        1.0 + rng.pick(&[0.0, 0.25, 0.1, -0.1]),
    );
    let first = (inner(rng), low);
    let last = (inner(rng), high);
    let waist = rng.pick(&[0.0, 0.0, -0.0]);
    let points = match rng.below(3) {
        0 => vec![first, (radius, 0.0), (waist, 0.5), (radius, 1.0), last],
        1 => vec![first, (radius, 0.0), (radius * 1.2, 0.5), (radius, 1.0), last],
        _ => vec![first, (radius, 0.0), (radius, 1.0), last],
    };
    Profile {
        outline: polygon(&points),
        low,
        high,
    }
}

/// An arc at one end or at both; about a point of the axis its end lies on
/// the axis, otherwise mostly beside it.
fn domed(rng: &mut Rng) -> Profile {
    let radius = rng.pick(&[0.5, 0.75]);
    let beside = rng.pick(&[0.0, 0.0, -0.0, 0.125]);
    let up = rng.pick(&[(0.0, 1.0), (0.0, 1.0), (-0.0, 1.0), (0.25, 1.0), (-0.125, 1.0)]);
    let down = rng.pick(&[(0.0, -1.0), (-0.0, -1.0), (0.25, -1.0)]);
    let top = Element::Arc {
        c: (beside, 1.0),
        r: radius,
        from: (1.0, 0.0),
        to: up,
    };
    let bottom = Element::Arc {
        c: (beside, 0.0),
        r: radius,
        from: down,
        to: (1.0, 0.0),
    };
    let low = rng.pick(&[0.0, -0.25]);
    let sharp = [(inner(rng), low), (radius, 0.0)].map(Element::Corner);
    let apex = rng.pick(&[1.0, 1.25]);
    let cone = [(radius, 1.0), (inner(rng), apex)].map(Element::Corner);
    let (elements, low, high) = match rng.below(3) {
        0 => ([&sharp[..], &[top]].concat(), low, 1.0 + radius),
        1 => ([&[bottom], &cone[..]].concat(), -radius, apex),
        _ => (vec![bottom, top], -radius, 1.0 + radius),
    };
    Profile {
        outline: chain(&elements),
        low,
        high,
    }
}

fn profile(rng: &mut Rng) -> Profile {
    if rng.once_in(3) {
        domed(rng)
    } else {
        straight(rng)
    }
}

/// A part turned about -0.0.
fn turned(rng: &mut Rng, body: usize, outline: Vec<Seg>) -> Part {
    Part {
        role: rng.pick(&['S', 'L', 'L']),
        sweep: Sweep::Revolved { axis: -0.0 },
        ..solid(body, outline)
    }
}

/// Ranges of a turned part with `half` segments on each side of its axis:
/// parted at the upper end of the axis, at the lower one or at both, or one
/// range across an end or along one side.
fn ranges(rng: &mut Rng, part: usize, half: usize) -> Vec<Range> {
    let all = 2 * half;
    let (first, past) = (rng.below(half), rng.between(half + 1, all));
    match rng.below(9) {
        0 | 1 => vec![(part, first, half), (part, half, past)],
        2 => vec![(part, past - 1, all), (part, 0, first + 1)],
        3 => vec![(part, half, all), (part, 0, half)],
        4 => vec![(part, half, past), (part, first, half)],
        5 | 6 => vec![(part, 0, all)],
        7 => vec![(part, 0, rng.pick(&[half, half + 1]))],
        _ => vec![(part, first, past)],
    }
}

/// A body at a point: on a hinge, turned by an angle, or on a slide.
fn carrier(rng: &mut Rng, sheet: &mut Sheet, at: Two, angle: f64) -> usize {
    match rng.below(3) {
        0 => sheet.slide(0, at, (0.0, 1.0), rng.pick(&[0.0, -0.0, 0.125])),
        _ => sheet.hinge(0, at, angle),
    }
}

/// A turned part under or over a tilted block, either of them on the ground.
fn with_block(rng: &mut Rng) -> Sheet {
    let mut sheet = Sheet::default();
    let Profile { outline, low, high } = profile(rng);
    let half = outline.len() - 1;
    let above = rng.once_in(2);
    let level = if above { high } else { low };
    let (left, right) = (rng.range(-1.0, -0.1), rng.range(0.1, 1.0));
    let block = match above {
        true => corners(left, 0.0, right, 0.5),
        false => corners(left, -0.5, right, 0.0),
    };
    let shift = rng.pick(&[0.0, 0.0, 0.05, -0.2, 0.3]);
    let sunk = rng.noise(0.05);
    let angle = rng.noise(0.4);
    if rng.once_in(3) {
        let body = carrier(rng, &mut sheet, (-shift, -level - sunk), angle);
        sheet.part(solid(0, polygon(&block)));
        let part = turned(rng, body, outline);
        sheet.part(part);
    } else {
        let body = carrier(rng, &mut sheet, (shift, level + sunk), angle);
        sheet.part(solid(body, polygon(&block)));
        let part = turned(rng, 0, outline);
        sheet.part(part);
    }
    let face = if above { 0 } else { 2 };
    let stop = ranges(rng, 1, half);
    sheet.pair(false, &[(0, face, face + 1)], &stop);
    sheet.pair(false, &ranges(rng, 1, half), &[(0, rng.pick(&[0, face]), 4)]);
    sheet.pair(true, &[(0, 0, 4)], &stop);
    sheet
}

/// Two turned parts end to end on one axis.
fn end_to_end(rng: &mut Rng) -> Sheet {
    let mut sheet = Sheet::default();
    let (lower, upper) = (profile(rng), profile(rng));
    let at = (rng.pick(&[0.0, -0.0, 0.01]), lower.high - upper.low + rng.noise(0.05));
    let angle = rng.noise(0.2);
    let body = carrier(rng, &mut sheet, at, angle);
    let halves = [lower.outline.len() - 1, upper.outline.len() - 1];
    let part = turned(rng, 0, lower.outline);
    sheet.part(part);
    let part = turned(rng, body, upper.outline);
    sheet.part(part);
    let past = rng.pick(&[1, 2]);
    let top = [(0, halves[0] - 1, halves[0]), (0, halves[0], halves[0] + past)];
    let bottom = [(1, 2 * halves[1] - past, 2 * halves[1]), (1, 0, 1)];
    sheet.pair(rng.once_in(4), &bottom, &top);
    sheet.pair(true, &top, &ranges(rng, 1, halves[1]));
    sheet
}

/// Wood on a slide with a turned cut in its underside, whose mouth is two
/// segments of the wood's outline that meet on the axis, over a pin. The wood
/// is turned too, or is not.
fn mouth(rng: &mut Rng) -> Sheet {
    let mut sheet = Sheet::default();
    let body = sheet.slide(0, (0.0, 0.0), (0.0, 1.0), rng.pick(&[0.125, 0.25, -0.5, 0.0]));
    let middle = (rng.pick(&[0.0, 0.0, -0.0]), 0.0);
    let right = [middle, (1.0, 0.0), (2.0, 0.0), (2.0, 3.0)];
    let round = rng.once_in(3);
    let wood = if round {
        let outline = polygon(&[&right[..], &[(middle.0, 3.0)]].concat());
        turned(rng, body, outline)
    } else {
        let left = [(-2.0, 3.0), (-2.0, 0.0), (-1.0, 0.0)];
        solid(body, polygon(&[&left[..], &right[..]].concat()))
    };
    let (top, hole) = (rng.pick(&[2.0, 1.5]), inner(rng));
    let void = [(hole, 0.0), (1.0, 0.0), (1.0, 2.0), (hole, top)];
    sheet.part(wood);
    let at = rng.pick(&[-0.5, -0.5, 0.25, -0.75]);
    sheet.part(solid(0, polygon(&corners(at, -2.0, at + 1.0, rng.pick(&[1.0, 1.9])))));
    sheet.part(Part {
        role: 'C',
        sweep: Sweep::Revolved {
            axis: rng.pick(&[-0.0, -0.0, -0.0, 0.0]),
        },
        ..solid(body, polygon(&void))
    });
    // The left and the right segment of the wood beside the mouth, and the
    // cut's walls between them, run backwards.
    let (left, right) = if round { (6, 1) } else { (1, 4) };
    let wood = [(0, left, left + 1), (2, 1, 5), (0, right, right + 1)];
    let parted = [(2, 3, 5), (2, 1, 3)];
    let side: &[Range] = match rng.below(3) {
        0 => &wood,
        1 => &parted,
        _ => &[(0, left, left + 1), (0, right, right + 1)],
    };
    sheet.pair(false, side, &[(1, rng.pick(&[0, 2]), 3)]);
    sheet.pair(true, &[(1, 1, 4)], &parted);
    sheet
}

/// Turned parts about -0.0.
pub fn about_minus_zero(rng: &mut Rng) -> Sheet {
    let mut sheet = match rng.below(8) {
        0 | 1 => mouth(rng),
        2 => end_to_end(rng),
        _ => with_block(rng),
    };
    let all = f64::INFINITY;
    sheet.margin = rng.pick(&[all, all, all, 1.0, 0.1, 0.0, f64::NAN, -0.1]);
    sheet
}

fn is_turned(part: &Part) -> bool {
    matches!(part.sweep, Sweep::Revolved { .. })
}

/// Whether a sheet has a turned part.
pub fn has_turned(sheet: &Sheet) -> bool {
    sheet.parts.iter().any(is_turned)
}

/// Sets every axis of 0.0 to -0.0, and all axes where none is zero.
pub fn set_axes(sheet: &mut Sheet) {
    let at_zero = |part: &Part| matches!(part.sweep, Sweep::Revolved { axis } if axis == 0.0);
    let some = sheet.parts.iter().any(at_zero);
    for part in &mut sheet.parts {
        if at_zero(part) || (!some && is_turned(part)) {
            part.sweep = Sweep::Revolved { axis: -0.0 };
        }
    }
}
