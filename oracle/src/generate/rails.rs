//! Sheets on which the order of the two chains is seen, or could be: gradients
//! and slips add body A's chain and subtract body B's.

use crate::outline::{corners, polygon};
use crate::sheet::{solid, Joint, Sheet, Two};

/// Two to the power of -53, half a unit in the last place of 1.
const HALF_UNIT: f64 = 1.0 / 9007199254740992.0;

/// A sheet of so many coordinates, each at the same travel, its sine 0 and its
/// cosine 1.
fn travelled(coords: usize, travel: f64) -> Sheet {
    Sheet {
        coords,
        margin: f64::INFINITY,
        entries: vec![(travel, 0.0, 1.0); coords],
        ..Sheet::default()
    }
}

/// Adds a body that slides from its parent's origin.
fn slide(sheet: &mut Sheet, parent: usize, coord: usize, axis: Two) -> usize {
    let origin = (0.0, 0.0);
    sheet.body(
        parent,
        Joint::Slide {
            coord,
            origin,
            axis,
        },
    )
}

/// A triangle on one body, its corner down over a square on another; the two
/// are read both ways.
fn over(sheet: &mut Sheet, body: usize, below: usize) {
    let triangle = polygon(&[(0.5, 1.25), (1.0, 2.0), (0.0, 2.0)]);
    let tip = sheet.part(solid(body, triangle));
    let base = sheet.part(solid(below, polygon(&corners(0.0, 0.0, 1.0, 1.0))));
    sheet.pair(false, &[(tip, 2, 3)], &[(base, 2, 3)]);
    sheet.pair(false, &[(base, 2, 3)], &[(tip, 2, 3)]);
}

/// One coordinate drives two slides of A's chain and one of B's: the two orders
/// give 0 and 2^-53.
fn two_joints() -> Sheet {
    let mut sheet = travelled(1, 0.25);
    let carrier = slide(&mut sheet, 0, 0, (0.0, 1.0));
    let top = slide(&mut sheet, carrier, 0, (1.0, HALF_UNIT));
    let below = slide(&mut sheet, 0, 0, (0.0, 1.0));
    over(&mut sheet, top, below);
    sheet
}

/// One coordinate drives two slides of A's chain, another one on each chain.
fn one_of_two() -> Sheet {
    let mut sheet = travelled(2, 0.125);
    let carrier = slide(&mut sheet, 0, 0, (0.0, 1.0));
    let middle = slide(&mut sheet, carrier, 1, (3.0, 4.0));
    let top = slide(&mut sheet, middle, 0, (1.0, HALF_UNIT));
    let rail = slide(&mut sheet, 0, 1, (5.0, 12.0));
    let below = slide(&mut sheet, rail, 0, (0.0, 1.0));
    over(&mut sheet, top, below);
    sheet
}

/// Both bodies ride on one slide, one of them on a hinge and the other on a
/// slide of its own.
fn shared_joint() -> Sheet {
    let mut sheet = travelled(3, 0.0625);
    sheet.entries[1] = crate::sheet::honest(0.03125);
    let carrier = slide(&mut sheet, 0, 0, (3.0, 4.0));
    let pivot = (0.25, -0.5);
    let top = sheet.body(carrier, Joint::Hinge { coord: 1, pivot });
    let below = slide(&mut sheet, carrier, 2, (-1.0, -2.0));
    over(&mut sheet, top, below);
    sheet
}

/// A is so far from the hinges of both chains that its levers are infinite: an
/// infinite gap is read, and gradients are NaN.
fn infinite_levers() -> Sheet {
    let mut sheet = travelled(3, 0.0);
    let far = 1.7e308;
    let pivot = (0.0, 0.0);
    let hung = sheet.body(0, Joint::Hinge { coord: 0, pivot });
    let origin = (far, far);
    let axis = (0.0, 1.0);
    let joint = Joint::Slide {
        coord: 1,
        origin,
        axis,
    };
    let top = sheet.body(hung, joint);
    let below = sheet.body(0, Joint::Hinge { coord: 2, pivot });
    let upper = polygon(&[(-0.25, 0.25), (0.25, -0.25), (0.25, 0.25)]);
    let tip = sheet.part(solid(top, upper));
    let lower = polygon(&[(0.25, -0.25), (-0.25, 0.25), (-0.25, -0.25)]);
    let base = sheet.part(solid(below, lower));
    sheet.pair(false, &[(tip, 0, 3)], &[(base, 0, 3)]);
    sheet.pair(false, &[(base, 0, 3)], &[(tip, 0, 3)]);
    sheet
}

/// Slides across the normal: their columns along it are zeros of either sign,
/// on A's chain, on B's, and on both.
fn zero_signs() -> Sheet {
    let mut sheet = travelled(4, 0.03125);
    let zeros = [0.0, -0.0];
    let mut on = [0, 0];
    for (chain, body) in on.iter_mut().enumerate() {
        for (k, zero) in zeros.into_iter().enumerate() {
            let left = slide(&mut sheet, *body, (k + chain) % 3, (-1.0, zero));
            *body = slide(&mut sheet, left, 3, (1.0, zero));
        }
    }
    over(&mut sheet, on[0], on[1]);
    let half = slide(&mut sheet, 0, 0, (1.0, -0.0));
    over(&mut sheet, half, 0);
    over(&mut sheet, 0, half);
    sheet
}

/// The sheets by name.
pub fn chosen() -> [(&'static str, Sheet); 5] {
    [
        ("rail-two-joints", two_joints()),
        ("rail-one-of-two", one_of_two()),
        ("rail-shared-joint", shared_joint()),
        ("rail-infinite-levers", infinite_levers()),
        ("rail-zero-signs", zero_signs()),
    ]
}
