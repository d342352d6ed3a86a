//! Poses and columns of the original, for the calls that the program pose_calls reads.
//!   poses calls N SEED     N descriptions with their questions, on standard output
//!   poses answers          the original's answers to the calls on standard input, as that program prints them
mod contact;
mod decided;
mod geometry;
mod mechanism;
mod registry;
mod splitmix;

use geometry::{Dir, Point};
use libm::Lent;
use mechanism::{Body, BodyId, CoordId, Joint, MaterialPoint, Mechanism, Pose};
use splitmix::Random;
use std::io::{BufRead, Write};

pub const G: f64 = 9.80665;

impl Random {
    fn below(&mut self, n: usize) -> usize {
        (self.next() % n as u64) as usize
    }

    fn plain(&mut self) -> f64 {
        (self.next() >> 11) as f64 / (1u64 << 52) as f64 - 1.0
    }

    // Mostly plain numbers; now and then a small whole one, a zero of either sign, an infinity, a NaN or any bits.
    fn number(&mut self) -> f64 {
        match self.below(24) {
            0 => -0.0,
            1 => 0.0,
            2 => f64::INFINITY,
            3 => f64::NAN,
            4 => f64::from_bits(self.next()),
            5..=8 => self.below(7) as f64 - 3.0,
            _ => self.plain(),
        }
    }
}

fn line(letter: char, fields: &[u64]) {
    let mut out = std::io::stdout().lock();
    write!(out, "{letter}").expect("output");
    for f in fields {
        write!(out, ",{f:016x}").expect("output");
    }
    writeln!(out).expect("output");
}

// A body of the tree: a parent before it, or now and then one that is refused.
fn body(r: &mut Random, i: usize, coords: usize, shape: usize) {
    let parent = match shape {
        0 => i - 1,
        _ if r.below(60) == 0 => i + r.below(2),
        _ => r.below(i),
    } as u64;
    let coord = match shape {
        0 => 0,
        _ if r.below(60) == 0 => coords + r.below(2),
        _ => r.below(coords.max(1)),
    } as u64;
    let (x, y) = (r.number().to_bits(), r.number().to_bits());
    match r.below(7) {
        0 => line('G', &[parent]),
        1..=3 => line('R', &[parent, coord, x, y]),
        _ => {
            let d = loop {
                let found = Dir::new(r.plain(), r.number()).map(|d| d.vector());
                if let Some(d) = found.filter(|d| axis(d.x, d.y).is_some()) {
                    break d;
                }
            };
            line('P', &[parent, coord, x, y, d.x.to_bits(), d.y.to_bits()]);
        }
    }
}

// One description: shape 0 is a chain of fifteen bodies that one coordinate drives, others are trees with coordinates that may be used twice or never.
fn description(r: &mut Random, shape: usize) {
    let bodies = if shape == 0 { 15 } else { r.below(16) };
    let coords = if shape == 0 { 1 } else { r.below(17) };
    line('N', &[coords as u64]);
    for i in 1..=bodies {
        body(r, i, coords, shape);
    }
    let entries = if r.below(40) == 0 { r.below(17) } else { coords };
    for _ in 0..entries {
        let value = r.number();
        let (sine, cosine) = if r.below(8) == 0 { (r.number(), r.number()) } else { (value.sin(), value.cos()) };
        line('T', &[value.to_bits(), sine.to_bits(), cosine.to_bits()]);
    }
    line('Q', &[]);
    for _ in 0..2 {
        let (x, y) = (r.number().to_bits(), r.number().to_bits());
        let (past_body, past_coord) = (usize::from(r.below(20) == 0), usize::from(r.below(20) == 0));
        let (b, c) = (r.below(bodies + 1 + past_body), r.below(coords.max(1) + past_coord));
        line('C', &[b as u64, x, y, c as u64]);
        line('W', &[b as u64, x, y]);
    }
}

// What was read of one description.
#[derive(Default)]
struct Read {
    coords: usize,
    bodies: Vec<Body>,
    entries: Vec<[f64; 3]>,
}

impl Read {
    // Document 01's refusals that a description without parts can meet: 4, then 5, then 11.
    fn refusal(&self) -> Option<(usize, usize)> {
        for (i, b) in self.bodies.iter().enumerate().skip(1) {
            let wrong = b.joint.coord().is_some_and(|c| c.0 >= self.coords);
            if b.parent.0 >= i || wrong {
                return Some((4, i));
            }
        }
        (self.entries.len() != self.coords).then_some((11, 0))
    }

    fn pose(&self) -> (Mechanism, Pose) {
        let m = Mechanism::unchecked(self.bodies.clone(), self.coords);
        let mut lent = Vec::new();
        for b in m.bodies() {
            if let Joint::Revolute { coord, .. } = b.joint {
                let [_, sine, cosine] = self.entries[coord.0];
                lent.extend([Lent::Sine(sine), Lent::Cosine(cosine)]);
            }
        }
        libm::lend(lent);
        let q: Vec<f64> = self.entries.iter().map(|e| e[0]).collect();
        let pose = m.pose(&q);
        assert_eq!(libm::left(), 0);
        (m, pose)
    }

    fn take(&mut self, letter: u8, f: &[u64]) {
        let float = |i: usize| f64::from_bits(f[i]);
        let point = |i: usize| Point::new(float(i), float(i + 1));
        let joint = match letter {
            b'N' => {
                *self = Read { coords: f[0] as usize, bodies: vec![Body::GROUND], entries: Vec::new() };
                return;
            }
            b'T' => {
                self.entries.push([float(0), float(1), float(2)]);
                return;
            }
            b'G' => Joint::Ground,
            b'R' => Joint::Revolute { pivot: point(2), coord: CoordId(f[1] as usize) },
            _ => Joint::Prismatic { origin: point(2), axis: axis(float(4), float(5)).expect("a direction of the original"), coord: CoordId(f[1] as usize) },
        };
        self.bodies.push(Body { parent: BodyId(f[0] as usize), joint, mass: None });
    }

    fn answer(&self, letter: u8, f: &[u64]) -> String {
        let number = |i: usize| f[i] as usize;
        let material = |f: &[u64]| MaterialPoint { body: BodyId(f[0] as usize), at: Point::new(f64::from_bits(f[1]), f64::from_bits(f[2])) };
        let refused = self.refusal();
        let unknown = letter != b'Q' && (number(0) >= self.bodies.len() || letter == b'C' && number(3) >= self.coords);
        // The pose that was not placed has no placements, so a column meets 11 and a point 12.
        match (letter, refused) {
            (b'W', Some(_)) => return "X,12,0".to_string(),
            (b'C', Some((11, 0))) => return "X,11,0".to_string(),
            (_, Some((n, p))) => return format!("X,{n},{p}"),
            _ if unknown => return "X,12,0".to_string(),
            _ => {}
        }
        let (m, pose) = self.pose();
        match letter {
            b'Q' => (0..self.bodies.len()).map(|i| pose.placement(BodyId(i))).map(|p| floats(&[p.origin.x, p.origin.y, p.cos, p.sin])).collect(),
            b'C' => point_of(m.jacobian_column(&pose, material(f), CoordId(number(3)))),
            _ => point_of(pose.world(material(f))),
        }
    }
}

// A slide's axis as it was handed over, where a vector is found that gives it.
fn axis(x: f64, y: f64) -> Option<Dir> {
    let near = |v: f64| [v, f64::from_bits(v.to_bits().wrapping_add(1)), f64::from_bits(v.to_bits().wrapping_sub(1)), 2.0 * v, 3.0 * v];
    for a in near(x) {
        for b in near(y) {
            if let Some(d) = Dir::new(a, b) {
                if d.vector().x.to_bits() == x.to_bits() && d.vector().y.to_bits() == y.to_bits() {
                    return Some(d);
                }
            }
        }
    }
    None
}

fn floats(xs: &[f64]) -> String {
    xs.iter().map(|x| format!("{:016x},", if x.is_nan() { 0x7ff8_0000_0000_0000 } else { x.to_bits() })).collect()
}

fn point_of(p: Point) -> String {
    floats(&[p.x, p.y])
}

fn answers() {
    let mut read = Read::default();
    let mut out = std::io::stdout().lock();
    for l in std::io::stdin().lock().lines() {
        let l = l.expect("input");
        let f: Vec<u64> = l.split(',').skip(1).map(|x| u64::from_str_radix(x, 16).expect("digits")).collect();
        let letter = l.as_bytes()[0];
        match letter {
            b'Q' | b'C' | b'W' => writeln!(out, "{}", read.answer(letter, &f)).expect("output"),
            _ => read.take(letter, &f),
        }
    }
}

fn main() {
    let args: Vec<String> = std::env::args().collect();
    let number = |i: usize, other: u64| args.get(i).map_or(other, |a| a.parse().expect("a number"));
    match args.get(1).map(String::as_str) {
        Some("calls") => {
            let mut r = Random(number(3, 1));
            for i in 0..number(2, 400) {
                description(&mut r, (i % 12) as usize);
            }
        }
        Some("answers") => answers(),
        _ => panic!("calls or answers"),
    }
}
