//! For bench/run: the original's readings. Reads a sheet text behind its length in six digits and a newline, then requests of two numbers in the same form, what is
//! asked and how often, until the second is zero: 0 asks for the whole reading (pose, rows with columns, and of every pair both overlaps and the bearing), 1 for
//! `pair_overlap` of one pair after the other at one pose, 2 for the same where each is asked of a mechanism that is checked and built for it. Prints the bits of the sum of the answers of each request.
mod checks;
mod contact;
mod decided;
mod geometry;
mod mechanism;
mod registry;
mod sheet;
mod text;

use contact::Rows;
use mechanism::Joint;
use std::hint::black_box;
use std::io::{Read, Write};

pub const G: f64 = 9.80665;

fn number(input: &mut impl Read) -> usize {
    let mut digits = [0; 7];
    if input.read_exact(&mut digits).is_err() {
        return 0;
    }
    std::str::from_utf8(&digits[..6]).expect("digits").parse().expect("a number")
}

fn main() {
    let mut input = std::io::stdin().lock();
    let mut text = vec![0; number(&mut input)];
    input.read_exact(&mut text).expect("a text");
    let sheet = text::read(&text).expect("a sheet");
    let mechanism = checks::described(&sheet).expect("an accepted sheet");
    let mut lent = Vec::new();
    for body in mechanism.bodies() {
        if let Joint::Revolute { coord, .. } = body.joint {
            lent.push(sheet.entries[coord.0].sine);
            lent.push(sheet.entries[coord.0].cosine);
        }
    }
    libm::lend(lent);
    let values: Vec<f64> = sheet.entries.iter().map(|entry| entry.value).collect();
    let pairs = u16::try_from(mechanism.pairs().len()).expect("at most sixteen pairs");
    let mut rows = Rows::new();
    loop {
        let what = number(&mut input);
        let turns = number(&mut input);
        if turns == 0 {
            return;
        }
        let mut sum = 0.0;
        if what == 1 || what == 2 {
            let pose = mechanism.pose(&values);
            for k in 0..turns {
                let pair = u16::try_from(k % usize::from(pairs)).expect("a pair");
                sum += if what == 1 {
                    mechanism.pair_overlap(black_box(&pose), pair)
                } else {
                    checks::described(black_box(&sheet)).expect("an accepted sheet").pair_overlap(&pose, pair)
                };
            }
            println!("{:016x}", f64::to_bits(sum));
            std::io::stdout().flush().expect("output");
            continue;
        }
        for _ in 0..turns {
            let pose = mechanism.pose(black_box(&values));
            mechanism.rows(&pose, sheet.margin, &mut rows);
            for pair in 0..pairs {
                sum += mechanism.pair_overlap(&pose, pair);
                sum += mechanism.face_overlap(&pose, pair);
                if let Some(bearing) = mechanism.bearing(&pose, &rows, pair) {
                    sum += bearing.gap;
                }
            }
            black_box(rows.rows());
        }
        println!("{:016x}", f64::to_bits(sum));
        std::io::stdout().flush().expect("output");
    }
}
