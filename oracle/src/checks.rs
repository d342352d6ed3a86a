//! Refusals 3, 4 and 5, which are ours, and 6 to 10, which the Rust's
//! `Mechanism::with_contacts` makes; then 11 and 13.

use crate::contact::{
    ContactCode, ContactLaw, ContactPair, Material, PairGeometry, Part, PartCode, PartId, Role,
    Surface, SurfaceRef, Sweep,
};
use crate::geometry::{Dir, Point, Seg};
use crate::mechanism::{Body, BodyId, CoordId, Joint, Mechanism, Problem};
use crate::sheet::{
    placeless, BodyLine, Hang, PairLines, PartLines, RangeLine, Refusal, RoleLetter, SegLine,
    Sheet, SweepFields, Two,
};

/// Row records that the program lends.
const LENT_ROWS: usize = 256;

/// The mechanism of a sheet, or the first refusal that applies.
pub fn mechanism(sheet: &Sheet) -> Result<Mechanism, Refusal> {
    let mechanism = described(sheet)?;
    if row_bound(&mechanism) > LENT_ROWS {
        return Err(placeless(13));
    }
    Ok(mechanism)
}

/// The same with 3 to 11 alone.
pub fn described(sheet: &Sheet) -> Result<Mechanism, Refusal> {
    check_counts(sheet)?;
    check_bodies(sheet)?;
    let bodies = bodies(sheet).ok_or(placeless(5))?;
    let parts = parts(sheet).ok_or(placeless(5))?;
    let pairs = sheet.pairs.iter().map(pair).collect();
    let mechanism = Mechanism::unchecked(bodies, usize::from(sheet.coords))
        .with_contacts(parts, pairs)
        .map_err(refusal)?;
    if sheet.entries.len() != usize::from(sheet.coords) {
        return Err(placeless(11));
    }
    Ok(mechanism)
}

// ---- 3: counts ----

/// How many segments a range counts for: past-last less first, or nothing.
fn counted(range: &RangeLine) -> usize {
    usize::from(range.past_last.saturating_sub(range.first))
}

fn side_passes(ranges: &[RangeLine]) -> bool {
    ranges.len() <= 4 && ranges.iter().map(counted).sum::<usize>() <= 12
}

fn check_counts(sheet: &Sheet) -> Result<(), Refusal> {
    let segments = |part: &PartLines| part.outline.len();
    let passes = sheet.bodies.len() + 1 <= 16
        && sheet.coords <= 16
        && sheet.parts.len() <= 32
        && sheet.parts.iter().all(|part| segments(part) <= 48)
        && sheet.parts.iter().map(segments).sum::<usize>() <= 384
        && sheet.pairs.len() <= 16
        && sheet
            .pairs
            .iter()
            .all(|pair| side_passes(&pair.a) && side_passes(&pair.b));
    if passes {
        Ok(())
    } else {
        Err(placeless(3))
    }
}

// ---- 4: parents and coordinates ----

fn coordinate(hang: Hang) -> Option<u16> {
    match hang {
        Hang::Ground => None,
        Hang::Revolute { coord, .. } | Hang::Prismatic { coord, .. } => Some(coord),
    }
}

fn check_bodies(sheet: &Sheet) -> Result<(), Refusal> {
    for (i, body) in sheet.bodies.iter().enumerate() {
        let place = i + 1;
        let parent_below = usize::from(body.parent) < place;
        let coordinate_below = coordinate(body.hang).is_none_or(|coord| coord < sheet.coords);
        if !parent_below || !coordinate_below {
            return Err(Refusal { number: 4, place });
        }
    }
    Ok(())
}

// ---- 5: directions and revolved axes ----

fn point((x, y): Two) -> Point {
    Point::new(x, y)
}

fn direction((x, y): Two) -> Option<Dir> {
    Dir::new(x, y)
}

fn joint(hang: Hang) -> Option<Joint> {
    Some(match hang {
        Hang::Ground => Joint::Ground,
        Hang::Revolute { coord, pivot } => Joint::Revolute {
            pivot: point(pivot),
            coord: CoordId(usize::from(coord)),
        },
        Hang::Prismatic {
            coord,
            origin,
            axis,
        } => Joint::Prismatic {
            origin: point(origin),
            axis: direction(axis)?,
            coord: CoordId(usize::from(coord)),
        },
    })
}

fn body(line: &BodyLine) -> Option<Body> {
    Some(Body {
        parent: BodyId(usize::from(line.parent)),
        joint: joint(line.hang)?,
        mass: None,
    })
}

/// All bodies, the ground first; none where a slide's axis has no direction.
fn bodies(sheet: &Sheet) -> Option<Vec<Body>> {
    let above: Option<Vec<Body>> = sheet.bodies.iter().map(body).collect();
    Some([vec![Body::GROUND], above?].concat())
}

fn segment(line: &SegLine) -> Option<Seg> {
    Some(match *line {
        SegLine::Line { a, b } => Seg::Line {
            a: point(a),
            b: point(b),
        },
        SegLine::Arc { c, r, from, to } => Seg::Arc {
            c: point(c),
            r,
            from: direction(from)?,
            to: direction(to)?,
        },
    })
}

/// The axis that a revolved part is turned about: the one that its line gives,
/// but +0.0 for -0.0. The sheet keeps the sign that was read.
fn turned_about(axis: f64) -> f64 {
    if axis == 0.0 {
        0.0
    } else {
        axis
    }
}

fn sweep(fields: SweepFields) -> Option<Sweep> {
    match fields {
        SweepFields::Extruded { width, across } => Some(Sweep::Extruded { width, across }),
        SweepFields::Revolved { axis } if axis.is_nan() => None,
        SweepFields::Revolved { axis } => Some(Sweep::Revolved {
            axis_x: turned_about(axis),
        }),
        SweepFields::Milled { width } => Some(Sweep::Milled { width }),
        SweepFields::Oval { width } => Some(Sweep::Oval { width }),
    }
}

fn role(letter: RoleLetter) -> Role {
    match letter {
        RoleLetter::Solid => Role::Solid,
        RoleLetter::Cut => Role::Cut,
        RoleLetter::Lining => Role::Lining,
    }
}

fn part(lines: &PartLines) -> Option<Part> {
    Some(Part {
        body: BodyId(usize::from(lines.head.body)),
        code: PartCode::Keystick,
        outline: lines.outline.iter().map(segment).collect::<Option<_>>()?,
        sweep: sweep(lines.head.sweep)?,
        role: role(lines.head.role),
        material: Material::KeyWood,
        placed_by: Vec::new(),
    })
}

/// All parts; none where an arc's direction or a revolved axis is refused.
fn parts(sheet: &Sheet) -> Option<Vec<Part>> {
    sheet.parts.iter().map(part).collect()
}

// ---- 6 to 10: what the Rust refuses ----

fn surface(ranges: &[RangeLine]) -> Surface {
    let range = |line: &RangeLine| SurfaceRef {
        part: PartId(line.part),
        segs: line.first..line.past_last,
    };
    Surface {
        ranges: ranges.iter().map(range).collect(),
    }
}

fn pair(lines: &PairLines) -> ContactPair {
    ContactPair {
        code: ContactCode::BackRailCloth,
        a: surface(&lines.a),
        b: surface(&lines.b),
        geometry: if lines.centered {
            PairGeometry::CenterBearing
        } else {
            PairGeometry::Features
        },
        law: ContactLaw::Rigid,
    }
}

/// Document 01's number and place of what the Rust refuses.
fn refusal(problem: Problem) -> Refusal {
    let (number, place) = match problem {
        Problem::PartOnNoSuchBody { part } => (6, part.index()),
        Problem::OutlineNotClosed { part } => (7, part.index()),
        Problem::RangeNotDrawn { pair } => (8, pair),
        Problem::SideOnTwoBodies { pair } => (9, pair),
        Problem::PairOnOneBody { pair } => (10, pair),
        other => panic!("with_contacts gave {other:?}"),
    };
    Refusal { number, place }
}

// ---- 13: the row bound ----

/// The sum of the pairs' row bounds, from the faces and discs that the Rust
/// read.
pub fn row_bound(mechanism: &Mechanism) -> usize {
    let pairs = mechanism.pairs().iter().zip(&mechanism.features);
    pairs
        .map(|(pair, sides)| {
            let (faces_a, discs_a) = (sides.a.faces.len(), sides.a.discs.len());
            let (faces_b, discs_b) = (sides.b.faces.len(), sides.b.discs.len());
            match pair.geometry {
                PairGeometry::Features => {
                    discs_a * faces_b + discs_b * faces_a + discs_a * discs_b
                }
                PairGeometry::CenterBearing => faces_a,
            }
        })
        .sum()
}
