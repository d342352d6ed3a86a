//! Readings of the original, for the texts that the program reading_calls reads.
//!   readings answers       the original's readings for each text on standard input, as that program prints them
//!   readings digests       the same as one number each, as the program prepared_calls prints them
//!   readings room          the room that `rows_in_numbers` asks for, as the program room_calls prints it
//!   readings tally         how many accepted texts on standard input have what
//!   readings record-frames N SEED   N frames for the program record_calls, of the texts on standard input with made-up records
//!   readings record-answers         the original's answers to such frames on standard input, as that program prints them
//!   readings record-tally           how many of such frames have what; status 1 where one of these things is in none
//!   readings records SEED  built with `--cfg records`: the rows of each accepted text on standard input, and made-up ones, through the static library `row_exports`; last line 'N equal, M different', in texts
mod checks;
mod contact;
mod decided;
mod geometry;
mod made_rows;
mod mechanism;
mod record_calls;
#[cfg(records)]
mod records;
mod registry;
mod sheet;
mod splitmix;
mod text;

use contact::{Bearing, HowItBears, PartId, Piece, Row, Rows};
use libm::Lent;
use mechanism::{Joint, Mechanism, Pose};
use std::collections::BTreeMap;
use std::fmt::Write as _;
use std::io::{Read, Write};

pub const G: f64 = 9.80665;

fn texts() -> Vec<Vec<u8>> {
    let mut all = Vec::new();
    std::io::stdin().read_to_end(&mut all).expect("input");
    let (mut rest, mut texts) = (&all[..], Vec::new());
    while rest.len() >= 7 {
        let n: usize = std::str::from_utf8(&rest[..6]).expect("digits").parse().expect("a length");
        texts.push(rest[7..7 + n].to_vec());
        rest = &rest[7 + n..];
    }
    texts
}

struct Read1 {
    mechanism: Mechanism,
    pose: Pose,
    margin: f64,
    rows: Rows,
}

fn read(text: &[u8]) -> Result<Read1, sheet::Refusal> {
    let sheet = text::read(text)?;
    let mechanism = checks::mechanism(&sheet)?;
    let mut lent = Vec::new();
    for body in mechanism.bodies() {
        if let Joint::Revolute { coord, .. } = body.joint {
            let entry = sheet.entries[coord.0];
            lent.push(Lent::Sine(entry.sine));
            lent.push(Lent::Cosine(entry.cosine));
        }
    }
    libm::lend(lent);
    let values: Vec<f64> = sheet.entries.iter().map(|entry| entry.value).collect();
    let pose = mechanism.pose(&values);
    let mut rows = Rows::new();
    mechanism.rows(&pose, sheet.margin, &mut rows);
    Ok(Read1 { mechanism, pose, margin: sheet.margin, rows })
}

// Sixteen digits and a comma, one pattern for all NaNs.
fn float(out: &mut String, x: f64) {
    let bits = if x.is_nan() { 0x7ff8_0000_0000_0000 } else { x.to_bits() };
    write!(out, "{bits:016x},").expect("a string");
}

fn floats(out: &mut String, all: &[f64]) {
    for &x in all {
        float(out, x);
    }
}

fn numbers(piece: Piece) -> (u64, PartId, u16) {
    match piece {
        Piece::Segment { part, seg } => (0, part, seg),
        Piece::Arc { part, seg } => (1, part, seg),
        Piece::Vertex { part, seg } => (2, part, seg),
        Piece::Center { part } => (3, part, 0),
    }
}

fn piece(out: &mut String, piece: Piece) {
    let (letter, part, seg) = numbers(piece);
    write!(out, "{letter},{},{seg},", part.0).expect("a string");
}

fn row(out: &mut String, row: &Row) {
    write!(out, "{},", row.pair).expect("a string");
    piece(out, row.feature.a);
    piece(out, row.feature.b);
    let n = row.normal.vector();
    let (a, b) = (row.on_a(), row.on_b());
    floats(out, &[row.gap, n.x, n.y, row.point.x, row.point.y, a.x, a.y, b.x, b.y]);
}

fn bearing(out: &mut String, found: Option<Bearing>) {
    let Some(b) = found else {
        out.push_str("N,");
        return;
    };
    out.push_str(match b.how {
        HowItBears::Flat => "F,",
        HowItBears::StopEdge => "E,",
        HowItBears::KeyCorner => "C,",
    });
    floats(out, &[b.gap, b.point.x, b.point.y]);
    match b.slope {
        Some(x) => float(out, x),
        None => out.push_str("N,"),
    }
}

fn pairs(mechanism: &Mechanism) -> u16 {
    u16::try_from(mechanism.pairs().len()).expect("at most sixteen pairs")
}

// The governing row, its gap and the bearing of each pair, and of the number behind the last.
fn governed(out: &mut String, r: &Read1, rows: &Rows) {
    for pair in 0..=pairs(&r.mechanism) {
        match rows.governing(pair) {
            Some(i) => write!(out, "{i},").expect("a string"),
            None => out.push_str("N,"),
        }
        match rows.gap(pair) {
            Some(x) => float(out, x),
            None => out.push_str("N,"),
        }
        bearing(out, r.mechanism.bearing(&r.pose, rows, pair));
    }
    out.push('\n');
}

fn answer(text: &[u8]) -> String {
    let r = match read(text) {
        Ok(found) => found,
        Err(refusal) => return format!("X,{},{}\n", refusal.number, refusal.place),
    };
    let mut out = format!("accepted,{},\n", r.rows.len());
    for (i, x) in r.rows.rows().iter().enumerate() {
        row(&mut out, x);
        floats(&mut out, r.rows.grad(i));
        floats(&mut out, r.rows.slip(i));
        out.push('\n');
    }
    out.push_str("past,X,12,0X,12,0\n");
    for pair in 0..pairs(&r.mechanism) {
        float(&mut out, r.mechanism.pair_overlap(&r.pose, pair));
        // Of `face_overlap` both zeros are alike.
        let faces = r.mechanism.face_overlap(&r.pose, pair);
        float(&mut out, if faces == 0.0 { 0.0 } else { faces });
        bearing(&mut out, r.mechanism.bearing(&r.pose, &r.rows, pair));
        out.push('\n');
    }
    governed(&mut out, &r, &r.rows);
    let mut made: Vec<Row> = r.rows.rows().to_vec();
    made.reverse();
    governed(&mut out, &r, &Rows::of(made.clone()));
    if let Some(first) = made.first_mut() {
        first.gap = f64::NAN;
    }
    governed(&mut out, &r, &Rows::of(made));
    out
}

// The number h with x gone into it.
fn mixed(h: u64, x: u64) -> u64 {
    (h % 4_294_967_291 * 1_000_003 + (x & 0xffff_ffff) + (x >> 32) * 31) % 4_294_967_291
}

fn with_float(h: u64, x: f64) -> u64 {
    mixed(h, if x.is_nan() { 0x7ff8_0000_0000_0000 } else { x.to_bits() })
}

fn with_bearing(h: u64, found: Option<Bearing>) -> u64 {
    let Some(b) = found else {
        return mixed(h, 0);
    };
    let how = match b.how {
        HowItBears::Flat => 1,
        HowItBears::StopEdge => 2,
        HowItBears::KeyCorner => 3,
    };
    let h = [b.gap, b.point.x, b.point.y].into_iter().fold(mixed(h, how), with_float);
    match b.slope {
        Some(x) => with_float(mixed(h, 1), x),
        None => mixed(h, 0),
    }
}

// All of a reading in one number: the rows, the gradients, the slips, then pair by pair the overlaps and the bearing.
fn digest_of(r: &Read1) -> u64 {
    let mut h = 0;
    for row in r.rows.rows() {
        h = mixed(h, row.pair.into());
        for piece in [row.feature.a, row.feature.b] {
            let (letter, part, seg) = numbers(piece);
            h = [letter, part.0.into(), seg.into()].into_iter().fold(h, mixed);
        }
        let n = row.normal.vector();
        h = [row.gap, n.x, n.y, row.point.x, row.point.y].into_iter().fold(h, with_float);
    }
    h = (0..r.rows.len()).flat_map(|i| r.rows.grad(i)).fold(h, |h, &x| with_float(h, x));
    h = (0..r.rows.len()).flat_map(|i| r.rows.slip(i)).fold(h, |h, &x| with_float(h, x));
    for pair in 0..pairs(&r.mechanism) {
        h = with_float(h, r.mechanism.pair_overlap(&r.pose, pair));
        // Of `face_overlap` both zeros are alike.
        let faces = r.mechanism.face_overlap(&r.pose, pair);
        h = with_float(h, if faces == 0.0 { 0.0 } else { faces });
        h = with_bearing(h, r.mechanism.bearing(&r.pose, &r.rows, pair));
    }
    h
}

fn digest(text: &[u8]) -> String {
    match read(text) {
        Ok(r) => format!("accepted,{},{}\n", r.rows.len(), digest_of(&r)),
        Err(refusal) => format!("X,{},{}\n", refusal.number, refusal.place),
    }
}

fn tally() {
    let mut counts: BTreeMap<String, usize> = BTreeMap::new();
    let mut count = |name: &str| *counts.entry(name.to_string()).or_default() += 1;
    for text in texts() {
        let r = match read(&text) {
            Ok(found) => found,
            Err(refusal) => {
                count("refused");
                if refusal.number == 13 {
                    count("refused with 13");
                }
                continue;
            }
        };
        count("accepted");
        count(match r.margin {
            m if m.is_nan() => "margin NaN",
            m if m.is_infinite() => "margin infinite",
            m if m < 0.0 => "margin negative",
            m if m == 0.0 => "margin zero",
            _ => "margin positive",
        });
        count(match r.rows.len() {
            0 => "no row",
            1..=3 => "few rows",
            _ => "many rows",
        });
        if r.mechanism.pairs().len() > 1 {
            count("several pairs");
        }
        let mut all = Rows::new();
        r.mechanism.rows(&r.pose, f64::NAN, &mut all);
        if all.rows().iter().any(|x| x.gap < -0.001) {
            count("a deep row");
        }
        for pair in 0..pairs(&r.mechanism) {
            if let Some(b) = r.mechanism.bearing(&r.pose, &r.rows, pair) {
                count(match b.how {
                    HowItBears::Flat => "bearing flat",
                    HowItBears::StopEdge => "bearing on a stop edge",
                    HowItBears::KeyCorner => "bearing on a key corner",
                });
                if b.slope.is_none() {
                    count("bearing without slope");
                }
            }
        }
        for x in r.rows.rows() {
            for p in [x.feature.a, x.feature.b] {
                count(match p {
                    Piece::Segment { .. } => "piece segment",
                    Piece::Arc { .. } => "piece arc",
                    Piece::Vertex { .. } => "piece vertex",
                    Piece::Center { .. } => "piece centre",
                });
            }
        }
    }
    for (name, count) in counts {
        println!("{count:6} {name}");
    }
}

#[cfg(records)]
fn records(seed: u64) {
    let mut random = splitmix::Random(seed);
    let (mut equal, mut different, mut rows) = (0, 0, 0);
    for (i, text) in texts().iter().enumerate() {
        let Ok(r) = read(text) else { continue };
        rows += r.rows.len();
        let read = records::Read { text, mechanism: &r.mechanism, pose: &r.pose, rows: &r.rows };
        if records::compare(&read, &mut random) {
            equal += 1;
        } else {
            different += 1;
            println!("text {i} is different");
        }
    }
    println!("{rows} rows of readings");
    println!("{equal} equal, {different} different");
}

fn answers(of: fn(&[u8]) -> String) {
    let mut out = std::io::stdout().lock();
    for text in texts() {
        out.write_all(of(&text).as_bytes()).expect("output");
    }
}

// The fewest row records, and the fewest gradients and slips, that are not too few.
fn room(text: &[u8]) -> String {
    match read(text) {
        Ok(r) => {
            let (bound, coords) = (checks::row_bound(&r.mechanism), r.mechanism.coords().len());
            let columns = bound * coords;
            format!("accepted,{bound},{bound},{columns},{columns},kept\n")
        }
        Err(refusal) => format!("X,{},{}\n", refusal.number, refusal.place),
    }
}

fn main() {
    let args: Vec<String> = std::env::args().skip(1).collect();
    match args.iter().map(String::as_str).collect::<Vec<_>>().as_slice() {
        ["answers"] => answers(answer),
        ["digests"] => answers(digest),
        ["room"] => answers(room),
        ["tally"] => tally(),
        ["record-frames", number, seed] => {
            record_calls::print_frames(texts(), number.parse().expect("a number"), seed.parse().expect("a seed"))
        }
        ["record-answers"] => record_calls::print_answers(),
        ["record-tally"] => std::process::exit(i32::from(!record_calls::print_tally())),
        #[cfg(records)]
        ["records", seed] => records(seed.parse().expect("a seed")),
        _ => eprintln!("usage: readings answers, readings digests, readings room, readings tally, readings record-frames N SEED, readings record-answers, readings record-tally"),
    }
}
