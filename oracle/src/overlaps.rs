//! Overlaps of the original, for the texts that the program overlap_calls reads.
//!   overlaps answers       the original's overlaps for each text on standard input, as that program prints them
//!   overlaps tally         how many accepted texts on standard input have what
mod checks;
mod contact;
mod decided;
mod geometry;
mod mechanism;
mod registry;
mod sheet;
mod text;

use contact::{PartId, Role};
use libm::Lent;
use mechanism::{Joint, Mechanism, Pose};
use std::collections::BTreeMap;
use std::fmt::Write as _;
use std::io::{Read, Write};

pub const G: f64 = 9.80665;

fn texts() -> Vec<Vec<u8>> {
    let mut all = Vec::new();
    std::io::stdin().read_to_end(&mut all).expect("input");
    let (mut rest, mut texts) = (&all[..], Vec::new());
    while rest.len() >= 7 {
        let n: usize = std::str::from_utf8(&rest[..6]).expect("digits").parse().expect("a length");
        texts.push(rest[7..7 + n].to_vec());
        rest = &rest[7 + n..];
    }
    texts
}

fn read(text: &[u8]) -> Result<(Mechanism, Pose), sheet::Refusal> {
    let sheet = text::read(text)?;
    let mechanism = checks::described(&sheet)?;
    let mut lent = Vec::new();
    for body in mechanism.bodies() {
        if let Joint::Revolute { coord, .. } = body.joint {
            let entry = sheet.entries[coord.0];
            lent.push(Lent::Sine(entry.sine));
            lent.push(Lent::Cosine(entry.cosine));
        }
    }
    libm::lend(lent);
    let values: Vec<f64> = sheet.entries.iter().map(|entry| entry.value).collect();
    let pose = mechanism.pose(&values);
    Ok((mechanism, pose))
}

// Sixteen digits and a comma, one pattern for all NaNs.
fn float(out: &mut String, x: f64) {
    let bits = if x.is_nan() { 0x7ff8_0000_0000_0000 } else { x.to_bits() };
    write!(out, "{bits:016x},").expect("a string");
}

// The lists of parts that are asked for: none, the first, the second with the first between, the even ones, the odd ones, one too many.
fn lists(parts: usize) -> Vec<Vec<usize>> {
    vec![
        vec![],
        vec![0],
        vec![1, 0, 1],
        (0..parts).filter(|i| i % 2 == 0).collect(),
        (0..parts).filter(|i| i % 2 == 1).collect(),
        vec![parts],
    ]
}

fn parts_overlap(out: &mut String, mechanism: &Mechanism, pose: &Pose, a: &[usize], b: &[usize]) {
    if a.iter().chain(b).any(|&i| i >= mechanism.parts().len()) {
        out.push_str("X,12,0,");
        return;
    }
    let ids = |l: &[usize]| -> Vec<PartId> { l.iter().map(|&i| PartId(u16::try_from(i).expect("a part"))).collect() };
    float(out, mechanism.parts_overlap(pose, &ids(a), &ids(b)));
}

fn answer(text: &[u8]) -> String {
    let (mechanism, pose) = match read(text) {
        Ok(found) => found,
        Err(refusal) => return format!("X,{},{}\n", refusal.number, refusal.place),
    };
    let mut out = String::from("accepted,");
    float(&mut out, mechanism.overlap(&pose));
    out.push('\n');
    for pair in 0..mechanism.pairs().len() {
        let pair = u16::try_from(pair).expect("at most sixteen pairs");
        float(&mut out, mechanism.pair_overlap(&pose, pair));
        // Of `face_overlap` both zeros are alike.
        let faces = mechanism.face_overlap(&pose, pair);
        float(&mut out, if faces == 0.0 { 0.0 } else { faces });
        out.push('\n');
    }
    let lists = lists(mechanism.parts().len());
    for (i, k) in [(0, 1), (1, 2), (1, 5), (5, 0), (3, 4), (4, 3), (3, 3), (2, 3)] {
        parts_overlap(&mut out, &mechanism, &pose, &lists[i], &lists[k]);
    }
    out.push('\n');
    out
}

fn tally() {
    let mut counts: BTreeMap<&str, usize> = BTreeMap::new();
    let mut count = |name| *counts.entry(name).or_default() += 1;
    for text in texts() {
        let Ok((mechanism, pose)) = read(&text) else {
            count("refused");
            continue;
        };
        count("accepted");
        let overlap = mechanism.overlap(&pose);
        count(if overlap == 0.0 { "nothing overlaps" } else if overlap.is_finite() { "an overlap" } else { "an infinite overlap" });
        if mechanism.parts().iter().any(|p| p.role == Role::Cut) {
            count("a cut");
        }
        if mechanism.parts().iter().any(|p| !p.sweep.is_in_the_section()) {
            count("a part beside the plane");
        }
        if (0..mechanism.bodies().len()).any(|b| {
            let p = pose.placement(mechanism::BodyId(b));
            !(p.origin.x.is_finite() && p.origin.y.is_finite() && p.cos.is_finite() && p.sin.is_finite())
        }) {
            count("a NaN or infinite pose");
        }
    }
    for (name, count) in counts {
        println!("{count:6} {name}");
    }
}

fn main() {
    let args: Vec<String> = std::env::args().skip(1).collect();
    match args.iter().map(String::as_str).collect::<Vec<_>>().as_slice() {
        ["answers"] => {
            let mut out = std::io::stdout().lock();
            for text in texts() {
                out.write_all(answer(&text).as_bytes()).expect("output");
            }
        }
        ["tally"] => tally(),
        _ => eprintln!("usage: overlaps answers, overlaps tally"),
    }
}
