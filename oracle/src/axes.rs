//! What sheets with a revolved axis of -0.0 have that would come out otherwise with the sign kept.
//!   axes FOLDER            how many of the folder's sheets have what
mod checks;
mod contact;
mod decided;
mod geometry;
mod mechanism;
mod registry;
mod sheet;
mod text;

use contact::{ContactPair, PairFeatures, PairGeometry, Part, Piece, Role, Surface, SurfaceRef, Sweep};
use geometry::{Disc, Face, Point, Seg};
use mechanism::Mechanism;
use sheet::{Refusal, Sheet, SweepFields};
use std::collections::BTreeMap;

pub const G: f64 = 9.80665;

// A part as it is read, and with the axis of its line.
struct Both {
    read: Part,
    kept: Part,
    minus_zero: bool,
}

impl Both {
    // Whether an end of a segment of the silhouette has other bits with the sign kept.
    fn parted(&self, seg: usize) -> bool {
        let (read, kept) = (self.read.silhouette(), self.kept.silhouette());
        self.minus_zero && (!same(read[seg].start(), kept[seg].start()) || !same(read[seg].end(), kept[seg].end()))
    }
}

fn both(sheet: &Sheet, mechanism: &Mechanism) -> Vec<Both> {
    let parts = mechanism.parts().iter().zip(&sheet.parts);
    parts
        .map(|(part, lines)| {
            let mut kept = part.clone();
            if let SweepFields::Revolved { axis } = lines.head.sweep {
                kept.sweep = Sweep::Revolved { axis_x: axis };
            }
            let minus_zero = |x: f64| x.to_bits() == (-0.0_f64).to_bits();
            let minus_zero = matches!(kept.sweep, Sweep::Revolved { axis_x } if minus_zero(axis_x));
            Both { read: part.clone(), kept, minus_zero }
        })
        .collect()
}

fn same(p: Point, q: Point) -> bool {
    p.x.to_bits() == q.x.to_bits() && p.y.to_bits() == q.y.to_bits()
}

// Where a range begins and ends as its side runs; a cut is run backwards, and its arcs have no ends.
fn ends(range: &SurfaceRef, part: &Part) -> (Option<Point>, Option<Point>) {
    let sil = part.silhouette();
    let (first, last) = (sil[usize::from(range.segs.start)], sil[usize::from(range.segs.end) - 1]);
    let line = |seg: Seg| matches!(seg, Seg::Line { .. });
    if part.role == Role::Cut {
        (line(last).then(|| last.end()), line(first).then(|| first.start()))
    } else {
        (Some(first.start()), Some(last.end()))
    }
}

// Whether one range ends where the next begins.
fn joined(ranges: &[SurfaceRef], part: impl Fn(usize) -> Part) -> bool {
    let [one, two] = [&ranges[0], &ranges[1]].map(|range| ends(range, &part(range.part.index())));
    matches!((one.1, two.0), (Some(p), Some(q)) if same(p, q))
}

fn tally_side(surface: &Surface, parts: &[Both], found: &mut Vec<&'static str>) {
    for pair in surface.ranges.windows(2) {
        if joined(pair, |i| parts[i].read.clone()) && !joined(pair, |i| parts[i].kept.clone()) {
            found.push("ranges that join on the axis, and would not with the sign kept");
        }
    }
    if surface.ranges.iter().any(|range| parts[range.part.index()].minus_zero) {
        found.push("a range of such a part");
    }
}

// The faces and the discs of a side.
type Side<'a> = (&'a [(Piece, Face)], &'a [(Piece, Disc)]);

// How many faces of a side a corner is matched with in `bearing`.
fn faces_at(corner: Piece, (faces, discs): Side) -> usize {
    let discs = discs.iter().filter(|(piece, _)| *piece == corner);
    let ends: Vec<Point> = discs
        .flat_map(|(_, d)| [d.from, d.to].map(|dir| (d, dir.vector())))
        .map(|(d, v)| Point::new(d.center.x + d.radius * v.x, d.center.y + d.radius * v.y))
        .collect();
    let meets = |p: Point| ends.iter().any(|&end| same(end, p));
    faces.iter().filter(|(_, face)| meets(face.a) || meets(face.b)).count()
}

fn tally_corners(read: Side, kept: Side, parts: &[Both], found: &mut Vec<&'static str>) {
    for &(piece, disc) in read.1 {
        let Piece::Vertex { part, .. } = piece else { continue };
        if parts[part.index()].minus_zero && disc.center.x == 0.0 {
            found.push("a corner on the axis");
            if faces_at(piece, kept) < faces_at(piece, read) {
                found.push("a corner on the axis, of which a face would be missed with the sign kept");
            }
        }
    }
}

fn tally_centre(pair: &ContactPair, centres: [Point; 2], parts: &[Both], found: &mut Vec<&'static str>) {
    let first = &pair.b.ranges[0];
    let part = &parts[first.part.index()];
    if !part.minus_zero || !matches!(pair.geometry, PairGeometry::CenterBearing) {
        return;
    }
    let sil = part.read.silhouette();
    if first.segs.clone().skip(1).any(|s| sil[usize::from(s)].start().x == 0.0) {
        found.push("a centre on the axis");
    }
    if centres[0] != centres[1] {
        found.push("a centre on the axis, which would stand elsewhere with the sign kept");
    }
}

// Segments of solids and linings with the ends of a cut's segment, where one of the two would have others.
fn tally_mouths(parts: &[Both], found: &mut Vec<&'static str>) {
    for cut in parts.iter().filter(|part| part.read.role == Role::Cut) {
        for (i, c) in cut.read.silhouette().into_iter().enumerate() {
            for other in parts.iter().filter(|part| part.read.role != Role::Cut) {
                for (k, s) in other.read.silhouette().into_iter().enumerate() {
                    let straight = same(c.start(), s.start()) && same(c.end(), s.end());
                    let turned = same(c.start(), s.end()) && same(c.end(), s.start());
                    if (straight || turned) && (cut.parted(i) || other.parted(k)) {
                        found.push("a mouth that ends on the axis, and would be none with the sign kept");
                    }
                }
            }
        }
    }
}

fn read(text: &[u8]) -> Result<(Sheet, Mechanism), Refusal> {
    let sheet = text::read(text)?;
    let mechanism = checks::mechanism(&sheet)?;
    Ok((sheet, mechanism))
}

fn found(sheet: &Sheet, mechanism: &Mechanism) -> Vec<&'static str> {
    let parts = both(sheet, mechanism);
    let mut found = vec!["accepted"];
    if parts.iter().all(|part| !part.minus_zero) {
        return found;
    }
    found.push("a revolved axis of -0.0, and of these");
    let lines: Vec<Part> = parts.iter().map(|part| part.kept.clone()).collect();
    for (pair, read) in mechanism.pairs().iter().zip(&mechanism.features) {
        let kept = PairFeatures::of(pair, &lines);
        tally_side(&pair.a, &parts, &mut found);
        tally_side(&pair.b, &parts, &mut found);
        for (read, kept) in [(&read.a, &kept.a), (&read.b, &kept.b)] {
            tally_corners((&read.faces, &read.discs), (&kept.faces, &kept.discs), &parts, &mut found);
        }
        tally_centre(pair, [read.b.center.1, kept.b.center.1], &parts, &mut found);
    }
    tally_mouths(&parts, &mut found);
    found.sort_unstable();
    found.dedup();
    found
}

fn main() {
    let folder = std::env::args().nth(1).expect("a folder");
    let mut counts: BTreeMap<&str, usize> = BTreeMap::new();
    for entry in std::fs::read_dir(folder).expect("a folder") {
        let path = entry.expect("an entry").path();
        if path.extension().is_some_and(|ending| ending == "sheet") {
            let text = std::fs::read(path).expect("a sheet");
            let shown = read(&text).map_or(vec!["refused"], |(sheet, mechanism)| found(&sheet, &mechanism));
            for name in shown {
                *counts.entry(name).or_default() += 1;
            }
        }
    }
    let names = [
        "accepted",
        "refused",
        "a revolved axis of -0.0, and of these",
        "a range of such a part",
        "ranges that join on the axis, and would not with the sign kept",
        "a corner on the axis",
        "a corner on the axis, of which a face would be missed with the sign kept",
        "a centre on the axis",
        "a centre on the axis, which would stand elsewhere with the sign kept",
        "a mouth that ends on the axis, and would be none with the sign kept",
    ];
    for name in names {
        println!("{:6} {name}", counts.get(name).unwrap_or(&0));
    }
}
