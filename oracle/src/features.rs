//! Features of the original, for the texts that the program features_calls reads.
//!   features frame FOLDER  the folder's sheets in order, each behind its length in six digits and a newline; in three of eight every revolved
//!                          axis is replaced, by an infinity or by -0.0
//!   features answers       the original's features for each text on standard input, as that program prints them
//!   features tally         how many accepted texts on standard input have what
mod checks;
mod contact;
mod decided;
mod geometry;
mod mechanism;
mod registry;
mod sheet;
mod text;

use contact::{PairFeatures, Part, Piece, Role, Surface};
use geometry::Seg;
use mechanism::Mechanism;
use sheet::{Sheet, SweepFields};
use std::collections::BTreeMap;
use std::fmt::Write as _;
use std::io::{Read, Write};

pub const G: f64 = 9.80665;

// The text with another axis on the lines of revolved parts.
fn with_axis(text: &[u8], axis: &str) -> Vec<u8> {
    let mut out = Vec::new();
    for line in text.split_inclusive(|byte| *byte == b'\n') {
        let fields: Vec<&[u8]> = line.split(|byte| *byte == b',').collect();
        match fields.as_slice() {
            [head @ .., axis_field] if line.starts_with(b"P,") && head.last() == Some(&&b"R"[..]) && axis_field.len() == 17 => {
                out.extend_from_slice(&line[..line.len() - 17]);
                out.extend_from_slice(axis.as_bytes());
                out.push(b'\n');
            }
            _ => out.extend_from_slice(line),
        }
    }
    out
}

fn frame(folder: &str) {
    let mut paths: Vec<_> = std::fs::read_dir(folder)
        .expect("a folder")
        .map(|entry| entry.expect("an entry").path())
        .filter(|path| path.extension().is_some_and(|ending| ending == "sheet"))
        .collect();
    paths.sort();
    let mut out = std::io::stdout().lock();
    for (i, path) in paths.into_iter().enumerate() {
        let text = std::fs::read(path).expect("a sheet");
        let text = match i % 8 {
            3 => with_axis(&text, "7ff0000000000000"),
            5 => with_axis(&text, "8000000000000000"),
            7 => with_axis(&text, "fff0000000000000"),
            _ => text,
        };
        if text.len() <= 65_537 {
            writeln!(out, "{:06}", text.len()).expect("output");
            out.write_all(&text).expect("output");
        }
    }
}

fn texts() -> Vec<Vec<u8>> {
    let mut all = Vec::new();
    std::io::stdin().read_to_end(&mut all).expect("input");
    let (mut rest, mut texts) = (&all[..], Vec::new());
    while rest.len() >= 7 {
        let n: usize = std::str::from_utf8(&rest[..6]).expect("digits").parse().expect("a length");
        texts.push(rest[7..7 + n].to_vec());
        rest = &rest[7 + n..];
    }
    texts
}

fn read(text: &[u8]) -> Result<Mechanism, sheet::Refusal> {
    checks::described(&text::read(text)?)
}

// Sixteen digits and a comma each, one pattern for all NaNs.
fn floats(out: &mut String, all: &[f64]) {
    for x in all {
        let bits = if x.is_nan() { 0x7ff8_0000_0000_0000 } else { x.to_bits() };
        write!(out, "{bits:016x},").expect("a string");
    }
    out.push('\n');
}

fn piece(out: &mut String, piece: Piece) {
    let (letter, part, seg) = match piece {
        Piece::Segment { part, seg } => ('S', part, seg),
        Piece::Arc { part, seg } => ('A', part, seg),
        Piece::Vertex { part, seg } => ('V', part, seg),
        Piece::Center { part } => ('C', part, 0),
    };
    write!(out, "{letter},{},{seg},", part.0).expect("a string");
}

fn answer(text: &[u8]) -> String {
    let mechanism = match read(text) {
        Ok(mechanism) => mechanism,
        Err(refusal) => return format!("X,{},{}\n", refusal.number, refusal.place),
    };
    let mut out = format!("accepted,{}\n", mechanism.features.len());
    for PairFeatures { a, b } in &mechanism.features {
        for side in [a, b] {
            writeln!(out, "side,{},{},{}", side.body.0, side.faces.len(), side.discs.len()).expect("a string");
            for (p, f) in &side.faces {
                piece(&mut out, *p);
                let n = f.normal.vector();
                floats(&mut out, &[f.a.x, f.a.y, f.b.x, f.b.y, n.x, n.y]);
            }
            for (p, d) in &side.discs {
                piece(&mut out, *p);
                let (f, t) = (d.from.vector(), d.to.vector());
                floats(&mut out, &[d.center.x, d.center.y, d.radius, f.x, f.y, t.x, t.y]);
            }
            piece(&mut out, side.center.0);
            floats(&mut out, &[side.center.1.x, side.center.1.y]);
        }
    }
    out
}

// What the sides of a description have; the axes are those of the sheet, as read.
fn tally_side(surface: &Surface, parts: &[Part], sheet: &Sheet, found: &mut Vec<&'static str>) {
    let mut taken = Vec::new();
    for (k, range) in surface.ranges.iter().enumerate() {
        let part = &parts[range.part.index()];
        let sil = part.silhouette();
        if part.role == Role::Cut {
            found.push("a cut's range");
            if range.segs.clone().any(|i| matches!(sil[usize::from(i)], Seg::Arc { .. })) {
                found.push("an arc of a cut");
            }
        }
        if usize::from(range.segs.end - range.segs.start) == sil.len() {
            found.push("a range over the whole silhouette");
        }
        for i in range.segs.clone() {
            if taken.contains(&(range.part.0, i)) {
                found.push("a repeated segment");
            }
            taken.push((range.part.0, i));
        }
        if k > 0 && part.role != Role::Cut {
            let before = &surface.ranges[k - 1];
            let last = parts[before.part.index()].silhouette()[usize::from(before.segs.end) - 1];
            let first = sil[usize::from(range.segs.start)].start();
            let end = last.end();
            if parts[before.part.index()].role != Role::Cut
                && end.x.to_bits() == first.x.to_bits()
                && end.y.to_bits() == first.y.to_bits()
            {
                found.push("joined ranges");
            }
        }
        if let SweepFields::Revolved { axis } = sheet.parts[range.part.index()].head.sweep {
            let inner = part.outline.last().expect("a closed outline").start().x;
            found.push(if inner == 0.0 { "a revolved part without a hole" } else { "a revolved part with a hole" });
            if axis == 0.0 && axis.is_sign_negative() {
                found.push("a revolved axis of -0.0");
            }
            if axis.is_infinite() {
                found.push("a revolved axis that is infinite");
            }
        }
    }
}

fn tally() {
    let mut counts: BTreeMap<&str, usize> = BTreeMap::new();
    for text in texts() {
        let both = text::read(&text).and_then(|sheet| checks::described(&sheet).map(|mechanism| (sheet, mechanism)));
        let Ok((sheet, mechanism)) = both else {
            *counts.entry("refused").or_default() += 1;
            continue;
        };
        let mut found = vec!["accepted"];
        for pair in mechanism.pairs() {
            tally_side(&pair.a, mechanism.parts(), &sheet, &mut found);
            tally_side(&pair.b, mechanism.parts(), &sheet, &mut found);
        }
        found.sort_unstable();
        found.dedup();
        for name in found {
            *counts.entry(name).or_default() += 1;
        }
    }
    for (name, count) in counts {
        println!("{count:6} {name}");
    }
}

fn main() {
    let args: Vec<String> = std::env::args().skip(1).collect();
    match args.iter().map(String::as_str).collect::<Vec<_>>().as_slice() {
        ["frame", folder] => frame(folder),
        ["answers"] => {
            let mut out = std::io::stdout().lock();
            for text in texts() {
                out.write_all(answer(&text).as_bytes()).expect("output");
            }
        }
        ["tally"] => tally(),
        _ => eprintln!("usage: features frame FOLDER, features answers, features tally"),
    }
}
