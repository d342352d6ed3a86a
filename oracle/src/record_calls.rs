//! Frames for the program record_calls, and the original's answers to them.
//! A frame is a sheet text and a list of records: the text behind its length in six digits and a newline, the records behind their number in the same form,
//! a line each: the seven whole numbers in five digits, then the five floats in sixteen hexadecimal digits, each behind a comma.
use crate::contact::{Feature, PairGeometry, PartId, Piece, Row, Rows};
use crate::geometry::{Dir, Disc, Face, Point};
use crate::made_rows::{bearing_numbers, bits, made_up, place, value, HELD};
use crate::splitmix::Random;
use crate::{pairs, read, Read1};
use std::collections::BTreeSet;
use std::fmt::Write as _;
use std::io::{Read, Write};

/// A list of records, and the text that says the sheet.
struct Frame {
    text: Vec<u8>,
    records: Vec<Row>,
}

/// What the stored frames have: in a list, in the gaps of a pair of the text, in the record that governs such a pair, in how it bears.
const SHOWN: [&str; 21] = [
    "no record",
    "64 records",
    "a record of a pair that the text does not have",
    "a pair's first gap is NaN",
    "a later gap of a pair is NaN",
    "the least gap is 0.0",
    "the least gap is -0.0",
    "0.0 and -0.0 are the least gaps",
    "the least gap is infinity",
    "the least gap is -infinity",
    "two least gaps are equal",
    "the governing record's piece of side A alone is missing",
    "the governing record's piece of side B alone is missing",
    "the governing record's pieces are missing on both sides",
    "the governing record's pieces are the other sides'",
    "the governing record has a centre on side B, in a pair of features",
    "bears flat",
    "bears on a stop's edge",
    "bears on a key's corner",
    "bears without a slope",
    "governed, does not bear",
];

// ---- frames as text

fn frame(out: &mut Vec<u8>, f: &Frame) {
    write!(out, "{:06}\n", f.text.len()).expect("memory");
    out.extend(&f.text);
    write!(out, "{:06}\n", f.records.len()).expect("memory");
    for row in &f.records {
        for n in place(row) {
            write!(out, ",{n:05}").expect("memory");
        }
        for x in value(row) {
            write!(out, ",{:016x}", bits(x)).expect("memory");
        }
        out.push(b'\n');
    }
}

fn piece(letter: u16, part: u16, seg: u16) -> Piece {
    let part = PartId(part);
    match letter {
        0 => Piece::Segment { part, seg },
        1 => Piece::Arc { part, seg },
        2 => Piece::Vertex { part, seg },
        _ => Piece::Center { part },
    }
}

// The record that a line says; before its first comma stands nothing.
fn record(line: &str) -> Row {
    let fields: Vec<&str> = line.split(',').collect();
    let n = |i: usize| fields[i].parse::<u16>().expect("a whole number");
    let x = |i: usize| f64::from_bits(u64::from_str_radix(fields[i], 16).expect("a float"));
    Row {
        pair: n(1),
        feature: Feature { a: piece(n(2), n(3), n(4)), b: piece(n(5), n(6), n(7)) },
        gap: x(8),
        normal: Dir::of(x(9), x(10)),
        point: Point::new(x(11), x(12)),
    }
}

// The first line of what is left, which goes on behind it.
fn line<'a>(rest: &mut &'a [u8]) -> &'a str {
    let end = rest.iter().position(|&b| b == b'\n').expect("a line");
    let (first, behind) = (&rest[..end], &rest[end + 1..]);
    *rest = behind;
    std::str::from_utf8(first).expect("letters")
}

fn count(rest: &mut &[u8]) -> usize {
    line(rest).parse().expect("a number")
}

// The frames on standard input.
fn frames() -> Vec<Frame> {
    let mut all = Vec::new();
    std::io::stdin().read_to_end(&mut all).expect("input");
    let (mut rest, mut frames) = (&all[..], Vec::new());
    while !rest.is_empty() {
        let n = count(&mut rest);
        let text = rest[..n].to_vec();
        rest = &rest[n..];
        let records = (0..count(&mut rest)).map(|_| record(line(&mut rest))).collect();
        frames.push(Frame { text, records });
    }
    frames
}

// ---- what a frame shows

fn has(faces: &[(Piece, Face)], discs: &[(Piece, Disc)], piece: Piece) -> bool {
    faces.iter().any(|&(p, _)| p == piece) || discs.iter().any(|&(p, _)| p == piece)
}

fn in_gaps(gaps: &[f64], least: f64) -> Vec<&'static str> {
    let least_ones = || gaps.iter().filter(|&&g| g == least).map(|&g| bits(g));
    let zeros = [bits(0.0), bits(-0.0)];
    [
        ("a pair's first gap is NaN", gaps[0].is_nan()),
        ("a later gap of a pair is NaN", !gaps[0].is_nan() && gaps.iter().any(|g| g.is_nan())),
        ("the least gap is 0.0", bits(least) == zeros[0]),
        ("the least gap is -0.0", bits(least) == zeros[1]),
        ("0.0 and -0.0 are the least gaps", zeros.iter().all(|&z| least_ones().any(|g| g == z))),
        ("the least gap is infinity", least == f64::INFINITY),
        ("the least gap is -infinity", least == f64::NEG_INFINITY),
        ("two least gaps are equal", least_ones().count() > 1),
    ]
    .into_iter()
    .filter_map(|(name, holds)| holds.then_some(name))
    .collect()
}

fn in_pieces(r: &Read1, row: &Row) -> Vec<&'static str> {
    let pair = usize::from(row.pair);
    let sides = &r.mechanism.features[pair];
    let on_a = |p: Piece| has(&sides.a.faces, &sides.a.discs, p);
    let on_b = |p: Piece| has(&sides.b.faces, &sides.b.discs, p);
    let center = |p: Piece| matches!(p, Piece::Center { .. });
    let missing = |p: Piece| !center(p) && !on_a(p) && !on_b(p);
    let Feature { a, b } = row.feature;
    let of_features = matches!(r.mechanism.pairs()[pair].geometry, PairGeometry::Features);
    [
        ("the governing record's piece of side A alone is missing", missing(a) && on_b(b)),
        ("the governing record's piece of side B alone is missing", on_a(a) && missing(b)),
        ("the governing record's pieces are missing on both sides", missing(a) && missing(b)),
        ("the governing record's pieces are the other sides'", on_b(a) && on_a(b) && !on_a(a) && !on_b(b)),
        ("the governing record has a centre on side B, in a pair of features", of_features && center(b)),
    ]
    .into_iter()
    .filter_map(|(name, holds)| holds.then_some(name))
    .collect()
}

fn in_pair(r: &Read1, rows: &Rows, pair: u16) -> Vec<&'static str> {
    let Some(i) = rows.governing(pair) else { return Vec::new() };
    let governing = rows.rows()[i];
    let gaps: Vec<f64> = rows.rows().iter().filter(|x| x.pair == pair).map(|x| x.gap).collect();
    let mut found = in_gaps(&gaps, governing.gap);
    found.extend(in_pieces(r, &governing));
    let bearing = r.mechanism.bearing(&r.pose, rows, pair);
    if bearing.is_some_and(|b| b.slope.is_none()) {
        found.push("bears without a slope");
    }
    found.push(match bearing_numbers(bearing, 0.0).0 {
        0 => "governed, does not bear",
        1 => "bears flat",
        2 => "bears on a stop's edge",
        _ => "bears on a key's corner",
    });
    found
}

fn shown(r: &Read1, records: &[Row]) -> BTreeSet<&'static str> {
    let rows = Rows::of(records.to_vec());
    let mut found: BTreeSet<&str> = (0..pairs(&r.mechanism)).flat_map(|pair| in_pair(r, &rows, pair)).collect();
    if records.is_empty() {
        found.insert("no record");
    }
    if records.len() == HELD {
        found.insert("64 records");
    }
    if records.iter().any(|x| x.pair >= pairs(&r.mechanism)) {
        found.insert("a record of a pair that the text does not have");
    }
    found
}

// ---- the jobs

// So many of the frames that each of `SHOWN` is in one, then that each is in two, and so on; the first that there are.
fn chosen(all: &[BTreeSet<&str>], number: usize) -> BTreeSet<usize> {
    let mut kept = BTreeSet::new();
    for times in 1..=number {
        for name in SHOWN {
            let have = kept.iter().filter(|&&i: &&usize| all[i].contains(name)).count();
            if have < times && kept.len() < number {
                kept.extend((0..all.len()).find(|i| !kept.contains(i) && all[*i].contains(name)));
            }
        }
    }
    kept
}

/// So many frames of the accepted ones of these texts, with made-up records.
pub fn print_frames(texts: Vec<Vec<u8>>, number: usize, seed: u64) {
    let mut random = Random(seed);
    let (mut all, mut things) = (Vec::new(), Vec::new());
    for text in texts {
        let Ok(r) = read(&text) else { continue };
        let mut records = made_up(r.rows.rows(), &mut random);
        records.truncate(HELD);
        things.push(shown(&r, &records));
        all.push(Frame { text, records });
    }
    let mut out = Vec::new();
    for i in chosen(&things, number) {
        frame(&mut out, &all[i]);
    }
    std::io::stdout().lock().write_all(&out).expect("output");
}

// Stands for a gap or a slope that is missing.
const NONE: f64 = 0.375;

// Sixteen digits and a comma.
fn float(out: &mut String, x: f64) {
    write!(out, "{:016x},", bits(x)).expect("a string");
}

fn answer(out: &mut String, r: &Read1, rows: &Rows, pair: u16) {
    let (gap, bearing) = (rows.gap(pair), r.mechanism.bearing(&r.pose, rows, pair));
    assert!(gap != Some(NONE) && bearing.is_none_or(|b| b.slope != Some(NONE)), "what stands for none is a gap or a slope");
    let (how, numbers) = bearing_numbers(bearing, NONE);
    write!(out, "{pair},{},", rows.governing(pair).unwrap_or(HELD)).expect("a string");
    float(out, gap.unwrap_or(NONE));
    write!(out, "{how},").expect("a string");
    for x in numbers {
        float(out, x);
    }
    out.push('\n');
}

/// The answers of the original to the frames on standard input, as the program record_calls prints them.
pub fn print_answers() {
    for f in frames() {
        let r = read(&f.text).ok().expect("an accepted text");
        let rows = Rows::of(f.records);
        let mut out = String::new();
        for pair in (0..=16).chain([u16::MAX]) {
            answer(&mut out, &r, &rows, pair);
        }
        print!("{out}");
    }
}

/// How many of the frames on standard input show each thing; whether each is shown.
pub fn print_tally() -> bool {
    let all: Vec<BTreeSet<&str>> =
        frames().iter().map(|f| shown(&read(&f.text).ok().expect("an accepted text"), &f.records)).collect();
    println!("{:6} frames", all.len());
    let count = |name: &str| all.iter().filter(|one| one.contains(name)).count();
    for name in SHOWN {
        println!("{:6} {name}", count(name));
    }
    SHOWN.into_iter().all(|name| count(name) > 0)
}
