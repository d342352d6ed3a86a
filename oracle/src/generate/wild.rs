//! Wild floats in every place where a float can stand.

use crate::random::Rng;
use crate::sheet::{Joint, Part, Seg, Sheet, Sweep, Two};

/// 2 to the power of `exponent`, for exponents of normal doubles.
fn power(exponent: i64) -> f64 {
    f64::from_bits(((exponent + 1023) as u64) << 52)
}

/// Any float worth trying.
fn wild(rng: &mut Rng) -> f64 {
    match rng.below(14) {
        0 => f64::NAN,
        1 => -f64::NAN,
        2 => f64::from_bits(0x7ff0_0000_0000_0001),
        3 => f64::INFINITY,
        4 => f64::NEG_INFINITY,
        5 => -0.0,
        6 => 0.0,
        7 => 5e-324,
        8 => rng.pick(&[f64::MAX, f64::MIN, f64::MIN_POSITIVE]),
        9 => power(600),
        10 => power(-600),
        11 => f64::from_bits(rng.bits()),
        12 => rng.pick(&[1.0, -1.0, 2.0, 1e-170, -1e-3]),
        _ => -power(rng.between(500, 620) as i64),
    }
}

/// A wild float that is no NaN and no infinity.
fn wild_number(rng: &mut Rng) -> f64 {
    loop {
        let x = wild(rng);
        if x.is_finite() {
            return x;
        }
    }
}

fn of_joint<'a>(joint: &'a mut Joint, all: &mut Vec<&'a mut f64>) {
    match joint {
        Joint::Ground => {}
        Joint::Hinge { pivot, .. } => all.extend([&mut pivot.0, &mut pivot.1]),
        Joint::Slide { origin, axis, .. } => {
            all.extend([&mut origin.0, &mut origin.1, &mut axis.0, &mut axis.1]);
        }
    }
}

fn of_sweep<'a>(sweep: &'a mut Sweep, all: &mut Vec<&'a mut f64>) {
    match sweep {
        Sweep::Extruded { width, across } => all.extend([width, across]),
        Sweep::Revolved { axis } => all.push(axis),
        Sweep::Milled { width } | Sweep::Oval { width } => all.push(width),
    }
}

fn of_segment<'a>(seg: &'a mut Seg, all: &mut Vec<&'a mut f64>) {
    match seg {
        Seg::Line { a, b } => all.extend([&mut a.0, &mut a.1, &mut b.0, &mut b.1]),
        Seg::Arc { c, r, from, to } => all.extend([
            &mut c.0, &mut c.1, r, &mut from.0, &mut from.1, &mut to.0, &mut to.1,
        ]),
    }
}

/// The floats of the pose and of the joints.
fn pose_floats(sheet: &mut Sheet) -> Vec<&mut f64> {
    let mut all = vec![&mut sheet.margin];
    for (value, sine, cosine) in &mut sheet.entries {
        all.extend([value, sine, cosine]);
    }
    for body in &mut sheet.bodies {
        of_joint(&mut body.joint, &mut all);
    }
    all
}

/// The floats of the sweeps.
fn sweep_floats(sheet: &mut Sheet) -> Vec<&mut f64> {
    let mut all = Vec::new();
    for part in &mut sheet.parts {
        of_sweep(&mut part.sweep, &mut all);
    }
    all
}

/// The floats of the outlines.
fn outline_floats(sheet: &mut Sheet) -> Vec<&mut f64> {
    let mut all = Vec::new();
    for part in &mut sheet.parts {
        for seg in &mut part.outline {
            of_segment(seg, &mut all);
        }
    }
    all
}

fn replace_one(rng: &mut Rng, mut floats: Vec<&mut f64>) {
    if !floats.is_empty() {
        let k = rng.below(floats.len());
        *floats[k] = wild(rng);
    }
}

fn some_part<'a>(rng: &mut Rng, sheet: &'a mut Sheet) -> Option<&'a mut Part> {
    let count = sheet.parts.len();
    if count == 0 {
        return None;
    }
    sheet.parts.get_mut(rng.below(count))
}

/// Moves a corner between two lines to wild numbers, so that the outline
/// stays closed.
fn move_corner(rng: &mut Rng, part: &mut Part) {
    let n = part.outline.len();
    let k = rng.below(n);
    let old: Two = match (&part.outline[k], &part.outline[(k + 1) % n]) {
        (Seg::Line { b, .. }, Seg::Line { .. }) => *b,
        _ => return,
    };
    let new = match rng.below(4) {
        0 => (wild_number(rng), old.1),
        1 => (old.0, wild_number(rng)),
        2 => (old.0 * (1.0 + 2.0 * f64::EPSILON), old.1),
        _ => (wild_number(rng), wild_number(rng)),
    };
    if let Seg::Line { b, .. } = &mut part.outline[k] {
        *b = new;
    }
    if let Seg::Line { a, .. } = &mut part.outline[(k + 1) % n] {
        *a = new;
    }
}

/// Multiplies all lengths of a part by a power of two.
fn scale(part: &mut Part, factor: f64) {
    let twice = |p: &mut Two| *p = (p.0 * factor, p.1 * factor);
    for seg in &mut part.outline {
        match seg {
            Seg::Line { a, b } => {
                twice(a);
                twice(b);
            }
            Seg::Arc { c, r, .. } => {
                twice(c);
                *r *= factor;
            }
        }
    }
}

/// Multiplies the two floats of an arc's directions by a power of two, which
/// leaves the direction as it is unless its squares pass the range.
fn stretch_directions(rng: &mut Rng, part: &mut Part) {
    let factor = power(rng.pick(&[1, 8, 300, 511, 512, -300, -500, -530, -540]));
    for seg in &mut part.outline {
        if let Seg::Arc { from, to, .. } = seg {
            *from = (from.0 * factor, from.1 * factor);
            *to = (to.0 * factor, to.1 * factor);
        }
    }
}

/// Makes a sine and cosine dishonest but of ordinary size.
fn dishonest(rng: &mut Rng, sheet: &mut Sheet) {
    let pair = rng.pick(&[
        (0.0, 0.0),
        (1.0, 1.0),
        (0.5, 0.5),
        (-1.0, 2.0),
        (0.0, -0.0),
        (0.0, 1e-9),
        (3.0, 4.0),
        (0.0, 1.0),
    ]);
    let count = sheet.entries.len();
    if count > 0 {
        let k = rng.below(count);
        sheet.entries[k].1 = pair.0;
        sheet.entries[k].2 = pair.1;
    }
}

/// Changes a sheet in one to three places.
pub fn change(rng: &mut Rng, sheet: &mut Sheet) {
    for _ in 0..rng.between(1, 3) {
        match rng.below(12) {
            0..=2 => replace_one(rng, pose_floats(sheet)),
            3 | 4 => replace_one(rng, sweep_floats(sheet)),
            5 => replace_one(rng, outline_floats(sheet)),
            6 | 7 => dishonest(rng, sheet),
            8 => {
                if let Some(part) = some_part(rng, sheet) {
                    scale(part, power(rng.pick(&[-530, -500, -100, 100, 500, 600, 1000])));
                }
            }
            9 => {
                if let Some(part) = some_part(rng, sheet) {
                    stretch_directions(rng, part);
                }
            }
            _ => {
                if let Some(part) = some_part(rng, sheet) {
                    move_corner(rng, part);
                }
            }
        }
    }
}
