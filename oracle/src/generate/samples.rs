//! The sample sheets in `sheets/`, from decimal numbers in metres; the
//! findings; and chosen corners.

use crate::limits::all_limits;
use crate::outline::{chain, corners, polygon, rounded, Element};
use crate::sheet::{honest, solid, Joint, Part, Range, Seg, Sheet, Sweep};
use crate::trade::{cloth, keystick, pin, punching, Key};

/// The worked example of document 01.
fn worked() -> Sheet {
    let mut sheet = Sheet::default();
    let body = sheet.slide(0, (0.0, 0.0), (0.0, 1.0), 1.5);
    sheet.entries[0] = (1.5, 0.0, 1.0);
    let square = polygon(&corners(0.0, 0.0, 1.0, 1.0));
    let triangle = polygon(&[(0.5, 0.0), (1.0, 1.0), (0.0, 1.0)]);
    for (on, outline) in [(0, square), (body, triangle)] {
        let mut part = solid(on, outline);
        part.sweep = crate::sheet::Sweep::Extruded {
            width: 1.0,
            across: 0.0,
        };
        sheet.part(part);
    }
    sheet.pair(false, &[(1, 2, 3)], &[(0, 2, 3)]);
    sheet.margin = 1.0;
    sheet
}

/// The key of the samples: 36 cm long, 22 mm high, chamfered at both ends.
const KEY: Key = Key {
    tail: -0.220,
    front: 0.140,
    height: 0.022,
    chamfer: 0.004,
    edge: 0.0005,
    mortise: (0.110, 0.122),
    depth: 0.014,
};

/// A key on a hinge at the balance rail. Its tail rests on the back rail
/// cloth, 24 mm long with edges of 0.5 mm; its front stands 9.4 mm above the
/// front rail punching.
fn key() -> Sheet {
    let mut sheet = Sheet::default();
    let body = sheet.hinge(0, (0.0, 0.020), 0.0);
    let angle = -0.0001;
    sheet.entries[0] = honest(angle);
    let drawn = keystick(&KEY, body);
    let (under, before) = (drawn.under, drawn.before);
    sheet.part(drawn.part);
    sheet.part(drawn.cut);
    sheet.part(cloth(-0.204, -0.180, 0.015, 0.020, 0.0005));
    sheet.part(punching(0.128, 0.002, 0.009, 0.006, 0.0105));
    sheet.pair(false, &[(0, under - 1, under + 1)], &[(2, 2, 5)]);
    sheet.pair(true, &[(0, before, before + 1)], &[(3, 2, 4)]);
    sheet.margin = 0.010;
    sheet
}

/// A felt punching of 20 mm under a key, 5 mm high, read at its centre; the
/// key slides on its balance pin and is turned by one degree.
fn punching_sheet() -> Sheet {
    let mut sheet = Sheet::default();
    let lift = sheet.slide(0, (0.0, 0.020), (0.0, 1.0), 0.0002);
    let body = sheet.hinge(lift, (0.0, 0.0), 0.0175);
    let drawn = keystick(&KEY, body);
    let under = drawn.under;
    sheet.part(drawn.part);
    sheet.part(punching(0.0, 0.002, 0.010, 0.015, 0.020));
    sheet.pair(true, &[(0, under, under + 1)], &[(1, 2, 4)]);
    sheet.margin = 0.001;
    sheet
}

/// A front pin of 3 mm in the mortise of a key pressed down: its tip less than
/// a millimetre under the top of the void and beside the rear wall.
fn pin_sheet() -> Sheet {
    let mut sheet = Sheet::default();
    let body = sheet.hinge(0, (0.0, 0.020), -0.060);
    let drawn = keystick(&KEY, body);
    let (under, before) = (drawn.under, drawn.before);
    sheet.part(drawn.part);
    sheet.part(drawn.cut);
    sheet.part(pin(0.1130, 0.0015, -0.005, 0.0264));
    sheet.pair(false, &[(1, 2, 3)], &[(2, 2, 3)]);
    let wood = [(0, under, under + 1), (1, 1, 4), (0, before, before + 1)];
    sheet.pair(false, &wood, &[(2, 1, 4)]);
    sheet.margin = 0.002;
    sheet
}

/// Two levers of 10 cm, one hung on the other, rounded at their tips. The
/// second one's tip stands over a round knuckle on the ground, arc on arc; the
/// first one's underside over the edge of a rail.
fn levers() -> Sheet {
    let mut sheet = Sheet::default();
    let first = sheet.hinge(0, (0.0, 0.0), 0.05);
    let second = sheet.hinge(first, (0.100, 0.0), -0.13);
    let lever = [
        ((-0.006, -0.004), 0.0),
        ((0.106, -0.004), 0.003),
        ((0.106, 0.004), 0.003),
        ((-0.006, 0.004), 0.0),
    ];
    let knuckle = [
        ((0.195, -0.050), 0.0),
        ((0.215, -0.050), 0.0),
        ((0.215, -0.010), 0.009),
        ((0.195, -0.010), 0.009),
    ];
    for body in [first, second] {
        sheet.part(solid(body, chain(&rounded(&lever))));
    }
    sheet.part(solid(0, chain(&rounded(&knuckle))));
    sheet.part(cloth(0.050, 0.074, -0.006, -0.002, 0.0005));
    sheet.pair(false, &[(1, 0, 4)], &[(2, 2, 6)]);
    sheet.pair(false, &[(0, 0, 2)], &[(3, 2, 5)]);
    sheet.margin = 0.020;
    sheet
}

/// A triangle on a slide, one side of which is so short that its placed ends
/// coincide: its corner reads 0/0 for that side, with honest sines.
fn no_placed_length() -> Sheet {
    let mut sheet = Sheet::default();
    let body = sheet.slide(0, (1.0, 1.0), (0.0, 1.0), 0.0);
    let tiny = 1e-18;
    let key = [(0.0, 0.0), (tiny, 0.5 * tiny), (-0.5, 0.5)];
    sheet.part(solid(body, polygon(&key)));
    sheet.part(solid(0, polygon(&corners(0.0, 0.0, 2.0, 1.0))));
    sheet.pair(false, &[(0, 0, 3)], &[(1, 2, 3)]);
    sheet
}

/// A key with its corner at its origin, turned by a lent sine and cosine so
/// large that the far ends of its sides overflow.
fn reach_overflows() -> Sheet {
    let mut sheet = Sheet::default();
    let body = sheet.hinge(0, (0.0, 0.0), 0.0);
    sheet.entries[0] = (0.0, 0.0, 1e308);
    let key = [(0.0, 0.0), (0.5, 1.0), (-2.0, 1.0)];
    sheet.part(solid(body, polygon(&key)));
    sheet.part(solid(0, polygon(&corners(-1.0, -1.0, 1.0, 0.0))));
    sheet.pair(false, &[(0, 0, 3)], &[(1, 2, 3)]);
    sheet
}

/// A stop so far away that the middle of its face overflows, with honest
/// sines: the corner's level side reads infinity times zero.
fn middle_overflows() -> Sheet {
    let mut sheet = Sheet::default();
    let body = sheet.slide(0, (0.0, 1.7e308), (0.0, 1.0), 0.0);
    let s = 0.25;
    sheet.part(solid(0, polygon(&[(s, -s), (-s, s), (-s, -s)])));
    sheet.part(solid(body, polygon(&[(-s, s), (s, -s), (s, s)])));
    sheet.pair(false, &[(0, 0, 3)], &[(1, 0, 1)]);
    sheet.margin = f64::INFINITY;
    sheet
}

/// A tiny stop with its corner at its origin, turned by a lent sine and
/// cosine so large that the normal of one of its two faces overflows.
fn facing_overflows() -> Sheet {
    let mut sheet = Sheet::default();
    let body = sheet.hinge(0, (0.0, 0.0), 0.0);
    sheet.entries[0] = (0.0, 1.7e308, 1.7e308);
    let size = 9.3e-156;
    let stop = [(0.0, 0.0), (-size, -2.0 * size), (size, -2.0 * size)];
    sheet.part(solid(0, polygon(&corners(-1.0, 0.0, 1.0, 1.0))));
    sheet.part(solid(body, polygon(&stop)));
    sheet.pair(false, &[(0, 0, 1)], &[(1, 0, 3)]);
    sheet
}

/// A stop whose upper corner stands at the height -0.0, under a level face: in
/// `bearing` its end is computed as +0.0, so that no face meets it and there
/// is no slope.
fn corner_at_minus_zero() -> Sheet {
    let mut sheet = Sheet::default();
    let body = sheet.body(0, Joint::Ground);
    let key = [(-1.0, 0.5), (1.0, 0.5), (0.0, 1.0)];
    let stop = [(-1.0, -1.0), (1.0, -1.0), (0.0, -0.0)];
    sheet.part(solid(body, polygon(&key)));
    sheet.part(solid(0, polygon(&stop)));
    sheet.pair(false, &[(0, 0, 1)], &[(1, 1, 3)]);
    sheet.margin = 1.0;
    sheet
}

/// A triangle on a slide that stands whole in a square on the ground, and a
/// cut on the ground, outside the square, with the same coordinates as the
/// triangle: no side of the triangle is sampled.
fn cut_of_another_body() -> Sheet {
    let mut sheet = Sheet::default();
    let body = sheet.slide(0, (4.0, 0.0), (0.0, 1.0), 0.0);
    let triangle = polygon(&[(0.0, 0.0), (1.0, 0.0), (0.0, 1.0)]);
    sheet.part(solid(body, triangle.clone()));
    sheet.part(solid(0, polygon(&corners(3.0, -1.0, 6.0, 2.0))));
    sheet.part(cut(0, triangle));
    sheet.pair(false, &[(0, 0, 1)], &[(1, 2, 3)]);
    sheet
}

/// A corner that touches one underside with a gap of -0.0 and stands deep in
/// the part below it: -0.0 is not negative, so the deep row stays.
fn minus_zero_gap() -> Sheet {
    let mut sheet = Sheet::default();
    let body = sheet.slide(0, (0.0, 0.0), (0.0, 1.0), 0.0);
    sheet.entries[0] = (0.0, 0.0, 1.0);
    let apex = [(0.0, -1.0), (1.0, -1.0), (0.5, 0.0)];
    let above = [(0.0, 0.0), (1.0, -0.0), (1.0, 1.0), (0.0, 1.0)];
    let around = [(0.0, -0.5), (1.0, -0.5), (1.0, 0.5), (0.0, 0.5)];
    sheet.part(solid(body, polygon(&apex)));
    sheet.part(solid(0, polygon(&above)));
    sheet.part(solid(0, polygon(&around)));
    sheet.pair(false, &[(0, 1, 3)], &[(1, 0, 1), (2, 0, 1)]);
    sheet.margin = 1.0;
    sheet
}

/// A face that rises by exactly 2.5e-6 over a stop of length 1: still flat.
fn flat_limit() -> Sheet {
    let mut sheet = Sheet::default();
    let body = sheet.slide(0, (0.0, 0.0), (0.0, 1.0), 0.0);
    sheet.entries[0] = (0.0, 0.0, 1.0);
    let key = [(0.0, 0.0), (2.0, 2.0 * 2.5e-6), (2.0, 1.0), (0.0, 1.0)];
    let stop = corners(0.5, -1.0, 1.5, -0.25);
    sheet.part(solid(body, polygon(&key)));
    sheet.part(solid(0, polygon(&stop)));
    sheet.pair(false, &[(0, 0, 1)], &[(1, 2, 3)]);
    sheet.margin = 1.0;
    sheet
}

/// The same a step above: not flat.
fn past_the_flat_limit() -> Sheet {
    let mut sheet = flat_limit();
    let rise = f64::from_bits((2.0 * 2.5e-6_f64).to_bits() + 1);
    let key = [(0.0, 0.0), (2.0, rise), (2.0, 1.0), (0.0, 1.0)];
    sheet.parts[0].outline = polygon(&key);
    sheet
}

/// A side with a range on another body before one that is not drawn: 9, not 8.
fn nine_before_eight() -> Sheet {
    let mut sheet = flat_limit();
    sheet.pairs.clear();
    sheet.pair(false, &[(0, 0, 1), (1, 0, 1), (0, 9, 12)], &[(1, 2, 3)]);
    sheet
}

/// A revolved part of two segments, whose chain is one line, over a block.
fn two_segments_revolved() -> Sheet {
    let mut sheet = flat_limit();
    let mut cone = solid(sheet.parts[0].body, polygon(&[(1.2, 0.0), (1.4, 1.0)]));
    cone.sweep = crate::sheet::Sweep::Revolved { axis: 1.0 };
    sheet.parts[0] = cone;
    sheet.pairs.clear();
    sheet.pair(false, &[(0, 0, 2)], &[(1, 2, 3)]);
    sheet
}

/// A cut in the section.
fn cut(body: usize, outline: Vec<Seg>) -> Part {
    Part {
        role: 'C',
        ..solid(body, outline)
    }
}

/// How far the block over a pin is raised.
const RAISED: f64 = 0.125;

/// A block on a slide, with a mortise that is cut up from its underside, over
/// a pin on the ground that stands in the mortise. Of the block only the
/// segment over the pin, from (-1, 0) to (1, 0), stands in the pin, its middle
/// 0.5 deep; nothing of the pin stands in the block.
fn over_a_pin(mortise: Vec<Seg>) -> Sheet {
    let mut sheet = Sheet::default();
    let body = sheet.slide(0, (0.0, 0.0), (0.0, 1.0), RAISED);
    sheet.entries[0] = (RAISED, 0.0, 1.0);
    let left = [(-2.0, 3.0), (-2.0, 0.0), (-1.0, 0.0)];
    let right = [(1.0, 0.0), (2.0, 0.0), (2.0, 3.0)];
    sheet.part(solid(body, polygon(&[left, right].concat())));
    sheet.part(solid(0, polygon(&corners(-0.5, -2.0, 0.5, 1.0))));
    sheet.part(cut(body, mortise));
    sheet.pair(false, &[(0, 1, 4)], &[(1, 2, 3)]);
    sheet
}

/// A mortise that reaches below the block, so that its own lower side is not
/// the block's segment.
fn deeper_mortise() -> Vec<Seg> {
    polygon(&corners(-1.0, -0.5, 1.0, 2.0))
}

/// The arc from (-1, 0) to (1, 0) about (0, 0), over the lower half.
fn lower_half() -> Element {
    Element::Arc {
        c: (0.0, 0.0),
        r: 1.0,
        from: (-1.0, 0.0),
        to: (1.0, 0.0),
    }
}

/// The lower side of the mortise is an arc: the block's segment between its
/// ends is not sampled.
fn arc_as_mouth() -> Sheet {
    let top = [(1.0, 2.0), (-1.0, 2.0)].map(Element::Corner);
    over_a_pin(chain(&[&[lower_half()], &top[..]].concat()))
}

/// The block's segment is an arc with the ends of the mortise's lower side: it
/// is not sampled, though it stands 0.5 deep in a slab.
fn arc_over_mouth() -> Sheet {
    let mut sheet = over_a_pin(polygon(&corners(-1.0, 0.0, 1.0, 2.0)));
    let left = [(-2.0, 3.0), (-2.0, 0.0)].map(Element::Corner);
    let right = [(2.0, 0.0), (2.0, 3.0)].map(Element::Corner);
    let middle = [lower_half()];
    sheet.parts[0].outline = chain(&[&left[..], &middle, &right].concat());
    sheet.parts[1].outline = polygon(&corners(-15.0, -8.0, 17.0, RAISED - 0.5));
    sheet
}

/// A cut of a third body has the block's segment: not sampled.
fn mouth_of_third_body() -> Sheet {
    let mut sheet = over_a_pin(deeper_mortise());
    let third = sheet.body(0, Joint::Ground);
    sheet.part(cut(third, polygon(&corners(-1.0, 0.0, 1.0, 2.0))));
    sheet
}

/// A cut of a third body has a segment where the block's is placed, with other
/// coordinates on its body: the block's is sampled.
fn mouth_where_placed() -> Sheet {
    let mut sheet = over_a_pin(deeper_mortise());
    let third = sheet.body(0, Joint::Ground);
    sheet.part(cut(third, polygon(&corners(-1.0, RAISED, 1.0, 2.0))));
    sheet
}

/// The mortise's lower side begins at a height of -0.0, the block's segment at
/// 0.0: sampled.
fn mouth_at_minus_zero() -> Sheet {
    over_a_pin(polygon(&[
        (-1.0, -0.0),
        (1.0, 0.0),
        (1.0, 2.0),
        (-1.0, 2.0),
    ]))
}

/// A square on a slide over a block on the ground, with a half round cut in
/// one of its sides; side A has the ranges that the caller gives.
fn notched(notch: [Seg; 2], ranges: [Range; 2]) -> Sheet {
    let mut sheet = Sheet::default();
    let body = sheet.slide(0, (0.0, 0.0), (0.0, 1.0), 0.5);
    sheet.entries[0] = (0.5, 0.0, 1.0);
    sheet.part(solid(body, polygon(&corners(0.0, 0.0, 1.0, 1.0))));
    sheet.part(solid(0, polygon(&corners(-1.0, -1.0, 2.0, 0.0))));
    sheet.part(cut(body, notch.to_vec()));
    sheet.pair(false, &ranges, &[(1, 2, 3)]);
    sheet.margin = 1.0;
    sheet
}

/// The cut's range, run backwards, ends with its arc at (0, 0), where the
/// underside begins: not joined, so the underside's first corner is one of
/// the square.
fn cut_arc_ends_range() -> Sheet {
    let (up, down) = ((0.0, 1.0), (0.0, -1.0));
    let arc = Seg::Arc {
        c: (0.0, 0.5),
        r: 0.5,
        from: down,
        to: up,
    };
    let line = Seg::Line {
        a: (0.0, 1.0),
        b: (0.0, 0.0),
    };
    notched([arc, line], [(2, 0, 2), (0, 0, 1)])
}

/// The cut's range, run backwards, begins with its arc at (1, 0), where the
/// underside ends: not joined, so the underside's last corner is one of the
/// square.
fn cut_arc_begins_range() -> Sheet {
    let (up, down) = ((0.0, 1.0), (0.0, -1.0));
    let line = Seg::Line {
        a: (1.0, 0.0),
        b: (1.0, 1.0),
    };
    let arc = Seg::Arc {
        c: (1.0, 0.5),
        r: 0.5,
        from: up,
        to: down,
    };
    notched([line, arc], [(0, 0, 1), (2, 0, 2)])
}

/// A stop on the second of two bodies, each turned by half a turn with a lent
/// sine of 0.0: its placement has the sine -0.0 and counts as the world's. Its
/// face's normal is one that `Dir::new` would change, and is left as it is.
fn half_turns() -> Sheet {
    let mut sheet = Sheet::default();
    let first = sheet.hinge(0, (0.0, 0.0), 0.0);
    sheet.entries[0] = (core::f64::consts::PI, 0.0, -1.0);
    let pivot = (0.0, 0.0);
    let second = sheet.body(first, Joint::Hinge { coord: 0, pivot });
    let key = [(1.0, 1.5), (2.0, 2.5), (0.0, 2.5)];
    let stop = [(0.0, 0.0), (29.0 / 16.0, 0.0), (0.0, 19.0 / 16.0)];
    sheet.part(solid(0, polygon(&key)));
    sheet.part(solid(second, polygon(&stop)));
    sheet.pair(false, &[(0, 2, 3)], &[(1, 1, 2)]);
    sheet.margin = 1.0;
    sheet
}

/// A triangle over a square with no coordinate.
fn no_coordinates() -> Sheet {
    let mut sheet = Sheet::default();
    let body = sheet.body(0, Joint::Ground);
    let triangle = [(0.5, 1.5), (1.0, 2.5), (0.0, 2.5)];
    sheet.part(solid(0, polygon(&corners(0.0, 0.0, 1.0, 1.0))));
    sheet.part(solid(body, polygon(&triangle)));
    sheet.pair(false, &[(1, 2, 3)], &[(0, 2, 3)]);
    sheet.margin = 1.0;
    sheet
}

/// A profile turned about an axis, on the ground, under the level face of a
/// triangle, half a unit above the height 1.
fn under_a_face(axis: f64, profile: Vec<Seg>) -> Sheet {
    let mut sheet = Sheet::default();
    let body = sheet.body(0, Joint::Ground);
    let key = [(-1.0, 1.5), (1.0, 1.5), (0.0, 2.0)];
    sheet.part(solid(body, polygon(&key)));
    sheet.part(Part {
        sweep: Sweep::Revolved { axis },
        ..solid(0, profile)
    });
    sheet.margin = 1.0;
    sheet
}

/// The profile of a cone with its apex at the height 1.
fn cone() -> Vec<Seg> {
    polygon(&[(0.0, 0.0), (1.0, 0.0), (0.0, 1.0)])
}

/// A cone about -0.0 under a level face; its two sides are two ranges, which
/// join at its apex: one corner, one row, and a slope.
fn axis_minus_zero() -> Sheet {
    let mut sheet = under_a_face(-0.0, cone());
    sheet.pair(false, &[(0, 0, 1)], &[(1, 1, 2), (1, 2, 3)]);
    sheet
}

/// A cone about -0.0 with its apex down, half a unit over the level face of a
/// stop on the ground, which reaches farther to the left.
fn over_a_stop() -> Sheet {
    let mut sheet = Sheet::default();
    let body = sheet.slide(0, (0.0, 0.0), (0.0, 1.0), 0.5);
    sheet.entries[0] = (0.5, 0.0, 1.0);
    sheet.part(Part {
        role: 'L',
        sweep: Sweep::Revolved { axis: -0.0 },
        ..solid(body, polygon(&[(0.25, 0.0), (1.0, 0.5), (0.25, 0.5)]))
    });
    sheet.part(solid(0, polygon(&corners(-2.0, -1.0, 0.5, 0.0))));
    sheet.margin = 1.0;
    sheet
}

/// The cone's sides are ranges that join at the lower end of the axis.
fn minus_zero_axis_ranges() -> Sheet {
    let mut sheet = over_a_stop();
    sheet.pair(false, &[(0, 3, 4), (0, 0, 1)], &[(1, 2, 3)]);
    sheet
}

/// The cone's corner at the lower end of the axis has both sides for its
/// faces; the left one runs on over the stop.
fn minus_zero_axis_corner() -> Sheet {
    let mut sheet = over_a_stop();
    sheet.pair(false, &[(0, 0, 4)], &[(1, 2, 3)]);
    sheet.pair(false, &[(1, 2, 3)], &[(0, 0, 4)]);
    sheet
}

/// A spool about -0.0 whose profile meets the axis at half its height, read
/// at its centre: the first corner on the axis is the one at the waist.
fn minus_zero_axis_centre() -> Sheet {
    let spool = [(0.0, 0.0), (1.0, 0.0), (0.0, 0.5), (1.0, 1.0), (0.0, 1.0)];
    let mut sheet = under_a_face(-0.0, polygon(&spool));
    sheet.pair(true, &[(0, 0, 1)], &[(1, 0, 8)]);
    sheet.margin = f64::INFINITY;
    sheet
}

/// A part about -0.0 with an arc at each end of its profile: a quarter of a
/// circle below, and an arc of radius zero above, where the halves meet in a
/// corner. Its ranges join at both ends of the axis.
fn minus_zero_axis_arcs() -> Sheet {
    let round = Element::Arc {
        c: (0.0, 0.0),
        r: 0.5,
        from: (0.0, -1.0),
        to: (1.0, 0.0),
    };
    let tip = Element::Arc {
        c: (0.0, 1.0),
        r: 0.0,
        from: (1.0, 0.0),
        to: (3.0, 4.0),
    };
    let profile = chain(&[round, tip]);
    let half = profile.len() - 1;
    let mut sheet = under_a_face(-0.0, profile);
    let halves = [(1, 0, half), (1, half, 2 * half)];
    sheet.pair(false, &[(0, 0, 1)], &halves);
    sheet.pair(false, &[(0, 0, 3)], &[halves[1], halves[0]]);
    sheet.pair(true, &[(0, 0, 1)], &[(1, 0, 2 * half)]);
    sheet
}

/// A cut about -0.0 over a pin: its mouth is the two segments of the block
/// that meet on the axis, and neither is sampled.
fn minus_zero_axis_mouth() -> Sheet {
    let mut sheet = over_a_pin(polygon(&corners(0.0, 0.0, 1.0, 2.0)));
    sheet.parts[2].sweep = Sweep::Revolved { axis: -0.0 };
    let left = [(-2.0, 3.0), (-2.0, 0.0), (-1.0, 0.0), (0.0, 0.0)];
    let right = [(1.0, 0.0), (2.0, 0.0), (2.0, 3.0)];
    sheet.parts[0].outline = polygon(&[&left[..], &right[..]].concat());
    sheet.pairs.clear();
    sheet.pair(false, &[(0, 1, 2), (2, 1, 5), (0, 4, 5)], &[(1, 2, 3)]);
    sheet
}

/// A cone about an infinite axis, in two ranges that join there and read at
/// its centre.
fn infinite_axis(axis: f64) -> Sheet {
    let mut sheet = under_a_face(axis, cone());
    sheet.pair(false, &[(0, 0, 1)], &[(1, 1, 2), (1, 2, 3)]);
    sheet.pair(true, &[(0, 0, 3)], &[(1, 1, 3)]);
    sheet
}

/// Corners of documents 01 and 02 that random sheets do not meet, or not for
/// sure. The listings of those named `minus-zero-axis-` would be others if the
/// sign of the axis were kept.
pub fn chosen() -> [(&'static str, Sheet); 22] {
    [
        ("minus-zero-gap", minus_zero_gap()),
        ("flat-limit", flat_limit()),
        ("past-the-flat-limit", past_the_flat_limit()),
        ("nine-before-eight", nine_before_eight()),
        ("two-segments-revolved", two_segments_revolved()),
        ("arc-as-mouth", arc_as_mouth()),
        ("arc-over-mouth", arc_over_mouth()),
        ("mouth-of-third-body", mouth_of_third_body()),
        ("mouth-where-placed", mouth_where_placed()),
        ("mouth-at-minus-zero", mouth_at_minus_zero()),
        ("cut-arc-ends-range", cut_arc_ends_range()),
        ("cut-arc-begins-range", cut_arc_begins_range()),
        ("half-turns", half_turns()),
        ("no-coordinates", no_coordinates()),
        ("all-limits", all_limits()),
        ("minus-zero-axis-ranges", minus_zero_axis_ranges()),
        ("minus-zero-axis-corner", minus_zero_axis_corner()),
        ("minus-zero-axis-centre", minus_zero_axis_centre()),
        ("minus-zero-axis-arcs", minus_zero_axis_arcs()),
        ("minus-zero-axis-mouth", minus_zero_axis_mouth()),
        ("infinite-axis", infinite_axis(f64::INFINITY)),
        ("minus-infinite-axis", infinite_axis(f64::NEG_INFINITY)),
    ]
}

/// The inputs on which the patched and the unpatched original differ, then
/// those on which the original is not what a reader may expect, then the one
/// that is read otherwise since document 02.
pub fn findings() -> [(&'static str, Sheet); 7] {
    [
        ("no-placed-length", no_placed_length()),
        ("reach-overflows", reach_overflows()),
        ("middle-overflows", middle_overflows()),
        ("facing-overflows", facing_overflows()),
        ("corner-at-minus-zero", corner_at_minus_zero()),
        ("cut-of-another-body", cut_of_another_body()),
        ("axis-minus-zero", axis_minus_zero()),
    ]
}

/// The samples by name.
pub fn all() -> [(&'static str, Sheet); 5] {
    [
        ("worked", worked()),
        ("key", key()),
        ("punching", punching_sheet()),
        ("pin", pin_sheet()),
        ("levers", levers()),
    ]
}
