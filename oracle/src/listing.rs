//! Document 01's listing of a sheet.

use crate::checks;
use crate::contact::{HowItBears, Piece, Row, Rows};
use crate::geometry::Point;
use crate::mechanism::{Joint, Mechanism, Pose};
use crate::sheet::{Refusal, Sheet};
use crate::text;
use libm::Lent;
use std::fmt::Write;

/// What the program `readings` prints for a text.
pub fn listing(text: &[u8]) -> String {
    match accepted(text) {
        Ok(listing) => listing,
        Err(Refusal { number, place }) => format!("X,{number},{place}\n"),
    }
}

fn accepted(text: &[u8]) -> Result<String, Refusal> {
    let sheet = text::read(text)?;
    let mechanism = checks::mechanism(&sheet)?;
    let pose = pose(&mechanism, &sheet);
    let mut rows = Rows::new();
    mechanism.rows(&pose, sheet.margin, &mut rows);
    let mut out = String::new();
    for pair in 0..mechanism.pairs().len() {
        let pair = u16::try_from(pair).expect("at most sixteen pairs");
        put_rows(&mut out, &rows, pair);
        put_overlaps(&mut out, &mechanism, &pose, pair);
        put_bearing(&mut out, &mechanism, &pose, &rows, pair);
    }
    Ok(out)
}

/// Places the mechanism, the sines and cosines being those of the sheet.
fn pose(mechanism: &Mechanism, sheet: &Sheet) -> Pose {
    let mut lent = Vec::new();
    for body in mechanism.bodies() {
        if let Joint::Revolute { coord, .. } = body.joint {
            let entry = sheet.entries[coord.0];
            lent.push(Lent::Sine(entry.sine));
            lent.push(Lent::Cosine(entry.cosine));
        }
    }
    libm::lend(lent);
    let values: Vec<f64> = sheet.entries.iter().map(|entry| entry.value).collect();
    let pose = mechanism.pose(&values);
    assert_eq!(libm::left(), 0, "lent sines and cosines left over");
    pose
}

/// Adds a comma and the sixteen digits of a float, one pattern for all NaNs.
fn put_float(out: &mut String, x: f64) {
    let bits = if x.is_nan() {
        0x7ff8_0000_0000_0000
    } else {
        x.to_bits()
    };
    write!(out, ",{bits:016x}").expect("a string takes any text");
}

fn put_point(out: &mut String, p: Point) {
    put_float(out, p.x);
    put_float(out, p.y);
}

fn piece(piece: Piece) -> String {
    match piece {
        Piece::Segment { part, seg } => format!("S,{},{seg}", part.0),
        Piece::Arc { part, seg } => format!("A,{},{seg}", part.0),
        Piece::Vertex { part, seg } => format!("V,{},{seg}", part.0),
        Piece::Center { part } => format!("C,{},-", part.0),
    }
}

fn put_row(out: &mut String, row: &Row) {
    let (a, b) = (piece(row.feature.a), piece(row.feature.b));
    write!(out, "R,{},{a},{b}", row.pair).expect("a string takes any text");
    put_float(out, row.gap);
    put_point(out, row.normal.vector());
    put_point(out, row.point);
    out.push('\n');
}

fn put_rows(out: &mut String, rows: &Rows, pair: u16) {
    for (i, row) in rows.of_pair(pair) {
        put_row(out, row);
        out.push('D');
        for &x in rows.grad(i).iter().chain(rows.slip(i)) {
            put_float(out, x);
        }
        out.push('\n');
    }
}

fn put_overlaps(out: &mut String, mechanism: &Mechanism, pose: &Pose, pair: u16) {
    write!(out, "O,{pair}").expect("a string takes any text");
    put_float(out, mechanism.pair_overlap(pose, pair));
    put_float(out, mechanism.face_overlap(pose, pair));
    out.push('\n');
}

fn put_bearing(out: &mut String, mechanism: &Mechanism, pose: &Pose, rows: &Rows, pair: u16) {
    let Some(bearing) = mechanism.bearing(pose, rows, pair) else {
        writeln!(out, "B,{pair},N").expect("a string takes any text");
        return;
    };
    let kind = match bearing.how {
        HowItBears::Flat => 'F',
        HowItBears::StopEdge => 'E',
        HowItBears::KeyCorner => 'C',
    };
    write!(out, "B,{pair},{kind}").expect("a string takes any text");
    put_float(out, bearing.gap);
    put_point(out, bearing.point);
    match bearing.slope {
        Some(slope) => put_float(out, slope),
        None => out.push_str(",N"),
    }
    out.push('\n');
}
