// Calls of the geometry and of the polygon test on chosen and random arguments.
//   geometry_calls compare N SEED   the proved functions of the geometry against the Rust's, N random calls of each; last line 'N equal, M different'
//   geometry_calls sample N SEED    calls as the program geometry_calls reads them, on standard output
//   geometry_calls answers          the Rust's answers to the calls on standard input, as that program prints them
#[path = "../target/geometry/mod.rs"]
#[allow(dead_code)]
mod geometry;
mod polygons;
mod splitmix;

use geometry::signed::in_sector;
use geometry::{center_on_face, disc_on_disc, disc_on_face, Dir, Disc, Face, Point, Proximity, Seg};
use splitmix::Random;
use std::io::{BufRead, Write};

// The Rust's polygon test, `inside`.
include!("../target/geometry/inside.rs");

extern "C" {
    fn sewqirun_dir(n: u64, x: f64, y: f64) -> f64;
    fn sewqirun_halfway(n: u64, fx: f64, fy: f64, tx: f64, ty: f64) -> f64;
    fn sewqirun_in_sector(ux: f64, uy: f64, fx: f64, fy: f64, tx: f64, ty: f64) -> bool;
    #[rustfmt::skip]
    fn sewqirun_disc_on_face(n: u64, cx: f64, cy: f64, r: f64, fx: f64, fy: f64, tx: f64, ty: f64, ax: f64, ay: f64, bx: f64, by: f64, nx: f64, ny: f64) -> f64;
    #[rustfmt::skip]
    fn sewqirun_disc_on_disc(n: u64, cx: f64, cy: f64, r: f64, fx: f64, fy: f64, tx: f64, ty: f64, dx: f64, dy: f64, s: f64, gx: f64, gy: f64, ux: f64, uy: f64) -> f64;
    fn sewqirun_drawn(n: u64, cx: f64, cy: f64, r: f64, fx: f64, fy: f64, tx: f64, ty: f64) -> f64;
    fn sewqirun_meeting(n: u64, gap: f64, nx: f64, ny: f64, px: f64, py: f64) -> f64;
    #[rustfmt::skip]
    fn sewqirun_center_on_face(n: u64, cx: f64, cy: f64, ax: f64, ay: f64, bx: f64, by: f64, nx: f64, ny: f64) -> f64;
}

impl Random {
    fn below(&mut self, n: u64) -> u64 {
        self.next() % n
    }

    // A small multiple of a quarter, so that directions and positions meet exactly.
    fn grid(&mut self) -> f64 {
        (self.below(17) as f64 - 8.0) * 0.25
    }

    fn plain(&mut self) -> f64 {
        (self.next() >> 11) as f64 / (1u64 << 52) as f64 - 1.0
    }

    fn wild(&mut self) -> f64 {
        const ODD: [u64; 12] = [
            0x0000_0000_0000_0000, 0x8000_0000_0000_0000, 0x7ff0_0000_0000_0000, 0xfff0_0000_0000_0000,
            0x7ff8_0000_0000_0000, 0x0000_0000_0000_0001, 0x800f_ffff_ffff_ffff, 0x7fef_ffff_ffff_ffff,
            0x6570_0000_0000_0000, 0x1a70_0000_0000_0000, 0x3ce0_0000_0000_0000, 0x5fe0_0000_0000_0000,
        ];
        match self.below(3) {
            0 => f64::from_bits(ODD[self.below(12) as usize]),
            1 => f64::from_bits(self.next()),
            _ => self.plain(),
        }
    }

    // Of the three kinds one serves a whole call.
    fn number(&mut self, kind: u64) -> f64 {
        match kind {
            0 => self.grid(),
            1 => self.plain(),
            _ => self.wild(),
        }
    }
}

const LETTERS: &[u8] = b"DSAFBCPH";

fn floats(letter: u8) -> usize {
    match letter {
        b'D' => 2,
        b'S' => 6,
        b'A' => 7,
        b'F' => 13,
        b'B' => 14,
        b'C' => 8,
        b'P' => 5,
        _ => 4,
    }
}

// Where a call's directions stand: the Rust has them only as `Dir::new` makes them.
fn directions(letter: u8) -> &'static [usize] {
    match letter {
        b'S' => &[2, 4],
        b'A' => &[3, 5],
        b'F' => &[3, 5, 11],
        b'B' => &[3, 5, 10, 12],
        b'C' => &[6],
        b'P' => &[1],
        b'H' => &[0, 2],
        _ => &[],
    }
}

// A call with directions that exist; now and then two of them are equal or opposite, or a centre stands on a face's end.
fn call(letter: u8, r: &mut Random) -> Vec<f64> {
    let kind = r.below(3);
    let mut x: Vec<f64> = (0..floats(letter)).map(|_| r.number(kind)).collect();
    let places = directions(letter);
    for &i in places {
        let d = loop {
            if let Some(d) = Dir::new(x[i], x[i + 1]) {
                break d.vector();
            }
            x[i] = r.plain();
            x[i + 1] = r.grid();
        };
        x[i] = d.x;
        x[i + 1] = d.y;
    }
    if places.len() > 1 && r.below(4) == 0 {
        let sign = if r.below(2) == 0 { 1.0 } else { -1.0 };
        x[places[1]] = sign * x[places[0]];
        x[places[1] + 1] = sign * x[places[0] + 1];
    }
    if letter == b'F' && r.below(3) == 0 {
        let end = if r.below(2) == 0 { 7 } else { 9 };
        let h = r.grid();
        x[0] = x[end] + h * x[11];
        x[1] = x[end + 1] + h * x[12];
    }
    if letter == b'B' && r.below(8) == 0 {
        x[7] = x[0];
        x[8] = x[1];
    }
    x
}

fn point(x: &[f64]) -> Point {
    Point::new(x[0], x[1])
}

// A direction as it was handed over: `Dir::new` of a direction can differ from it in the last bit, so one is looked for that gives it.
fn dir(x: &[f64]) -> Option<Dir> {
    let near = |v: f64| [v, f64::from_bits(v.to_bits().wrapping_add(1)), f64::from_bits(v.to_bits().wrapping_sub(1)), 2.0 * v, 3.0 * v];
    for a in near(x[0]) {
        for b in near(x[1]) {
            if let Some(d) = Dir::new(a, b) {
                let v = d.vector();
                if v.x.to_bits() == x[0].to_bits() && v.y.to_bits() == x[1].to_bits() {
                    return Some(d);
                }
            }
        }
    }
    None
}

fn disc(x: &[f64]) -> Option<Disc> {
    Some(Disc { center: point(x), radius: x[2], from: dir(&x[3..])?, to: dir(&x[5..])? })
}

fn face(x: &[f64]) -> Option<Face> {
    Some(Face { a: point(x), b: point(&x[2..]), normal: dir(&x[4..])? })
}

fn of_points(points: &[Point]) -> Vec<f64> {
    points.iter().flat_map(|p| [p.x, p.y]).collect()
}

fn of_proximity(p: Option<Proximity>) -> Option<Vec<f64>> {
    p.map(|p| {
        let n = p.normal.vector();
        vec![p.gap, n.x, n.y, p.point.x, p.point.y]
    })
}

// What the Rust answers: no call where a direction is not one of its own; then the floats, or nothing.
fn rust(letter: u8, x: &[f64]) -> Option<Option<Vec<f64>>> {
    Some(match letter {
        b'D' => Dir::new(x[0], x[1]).map(|d| of_points(&[d.vector()])),
        b'S' => Some(vec![if in_sector(point(x), dir(&x[2..])?, dir(&x[4..])?) { 1.0 } else { 0.0 }]),
        b'A' => {
            let seg = Seg::Arc { c: point(x), r: x[2], from: dir(&x[3..])?, to: dir(&x[5..])? };
            let mut points = seg.drawn(3);
            points.extend([seg.start(), seg.end()]);
            Some(of_points(&points))
        }
        b'F' => of_proximity(disc_on_face(&disc(x)?, &face(&x[7..])?)),
        b'B' => of_proximity(disc_on_disc(&disc(x)?, &disc(&x[7..])?)),
        b'C' => of_proximity(center_on_face(point(x), &face(&x[2..])?)),
        b'0'..=b'6' => {
            let corners: Vec<Point> = x[2..].chunks(2).map(point).collect();
            Some(vec![if inside(&corners, point(x)) { 1.0 } else { 0.0 }])
        }
        b'P' => {
            let p = Proximity { gap: x[0], normal: dir(&x[1..])?, point: point(&x[3..]) };
            let mut out = of_proximity(Some(p.reversed())).unwrap_or_default();
            out.extend(of_points(&[p.on_a(), p.on_b()]));
            Some(out)
        }
        _ => {
            let seg = Seg::Arc { c: Point::new(-0.0, -0.0), r: 1.0, from: dir(x)?, to: dir(&x[2..])? };
            Some(of_points(&[seg.drawn(1)[1]]))
        }
    })
}

// The proved function's answer to the same call.
#[rustfmt::skip]
fn proved(letter: u8, x: &[f64]) -> Option<Vec<f64>> {
    let field = |n: u64| unsafe {
        match letter {
            b'D' => sewqirun_dir(n, x[0], x[1]),
            b'F' => sewqirun_disc_on_face(n, x[0], x[1], x[2], x[3], x[4], x[5], x[6], x[7], x[8], x[9], x[10], x[11], x[12]),
            b'B' => sewqirun_disc_on_disc(n, x[0], x[1], x[2], x[3], x[4], x[5], x[6], x[7], x[8], x[9], x[10], x[11], x[12], x[13]),
            _ => sewqirun_center_on_face(n, x[0], x[1], x[2], x[3], x[4], x[5], x[6], x[7]),
        }
    };
    match letter {
        b'S' => Some(vec![if unsafe { sewqirun_in_sector(x[0], x[1], x[2], x[3], x[4], x[5]) } { 1.0 } else { 0.0 }]),
        b'H' => Some((1..3).map(|n| unsafe { sewqirun_halfway(n, x[0], x[1], x[2], x[3]) }).collect()),
        b'A' => Some((0..16).map(|n| unsafe { sewqirun_drawn(n, x[0], x[1], x[2], x[3], x[4], x[5], x[6]) }).collect()),
        b'P' => Some((1..10).map(|n| unsafe { sewqirun_meeting(n, x[0], x[1], x[2], x[3], x[4]) }).collect()),
        b'D' => (field(0) == 1.0).then(|| (1..3).map(field).collect()),
        _ => (field(0) == 1.0).then(|| (1..6).map(field).collect()),
    }
}

fn bits(x: f64) -> u64 {
    if x.is_nan() { 0x7ff8_0000_0000_0000 } else { x.to_bits() }
}

fn same(a: &Option<Vec<f64>>, b: &Option<Vec<f64>>) -> bool {
    match (a, b) {
        (None, None) => true,
        (Some(a), Some(b)) => a.iter().zip(b).all(|(x, y)| bits(*x) == bits(*y)),
        _ => false,
    }
}

fn line(letter: u8, x: &[f64]) -> String {
    let mut s = String::from(letter as char);
    for v in x {
        s += &format!(",{:016x}", v.to_bits());
    }
    s
}

fn printed(letter: u8, answer: &Option<Vec<f64>>) -> String {
    match answer {
        None => "-".to_string(),
        Some(v) if letter == b'S' || letter.is_ascii_digit() => format!("{}", v[0]),
        Some(v) => v.iter().map(|x| format!("{:016x},", bits(*x))).collect(),
    }
}

// The corners of document 01, in the words of a call.
fn corners() -> Vec<(u8, Vec<f64>)> {
    let (big, tiny, inf, nan) = (2f64.powi(600), 2f64.powi(-600), f64::INFINITY, f64::NAN);
    let step = 2f64.powi(-49);
    let down = [-1.0, 0.0, 1.0, 0.0];
    let top = [1.0, 1.0, 0.0, 1.0, 0.0, 1.0];
    let mut out = Vec::new();
    for (x, y) in [(3.0, 4.0), (0.0, 0.0), (-0.0, 0.0), (big, 0.0), (tiny, 0.0), (inf, 1.0), (nan, 1.0), (1.0, nan), (5e-324, 5e-324), (2.7e-162, 0.0), (-3.0, -4.0)] {
        out.push((b'D', vec![x, y]));
    }
    for u in [[0.0, 1.0], [0.0, -1.0], [1.0, 0.0], [-1.0, 0.0], [1.0, -step], [1.0, -2.0 * step], [1.0, -1.5 * step], [nan, 1.0]] {
        for (f, t) in [([1.0, 0.0], [-1.0, 0.0]), ([1.0, 0.0], [1.0, 0.0]), ([1.0, 0.0], [0.0, 1.0]), ([0.0, 1.0], [1.0, 0.0]), ([-1.0, 0.0], [1.0, 0.0])] {
            out.push((b'S', vec![u[0], u[1], f[0], f[1], t[0], t[1]]));
        }
    }
    // Over a half turn: the slack inside either end of the complement, then one bit more.
    let more = f64::from_bits(step.to_bits() + 1);
    for u in [[1.0, step], [1.0, more], [step, 1.0], [more, 1.0]] {
        out.push((b'S', vec![u[0], u[1], 0.0, 1.0, 1.0, 0.0]));
    }
    for (f, t) in [([1.0, 0.0], [1.0, 0.0]), ([1.0, 0.0], [-1.0, 0.0]), ([0.0, 1.0], [0.0, -1.0]), ([1.0, 0.0], [0.0, 1.0]), ([0.0, 1.0], [1.0, 0.0])] {
        out.push((b'H', vec![f[0], f[1], t[0], t[1]]));
        for r in [0.5, 0.0, -0.5, inf, nan] {
            out.push((b'A', vec![1.0, 2.0, r, f[0], f[1], t[0], t[1]]));
        }
    }
    for x in [0.5, 0.0, 1.0, -0.5, 1.5, -0.0, 1.0000000000000002, -5e-324, nan] {
        for r in [0.0, 0.25, -0.25] {
            out.push((b'F', [&[x, 2.0, r][..], &down, &top].concat()));
        }
        out.push((b'C', [&[x, 2.0][..], &top].concat()));
        out.push((b'C', [&[x, 0.5][..], &top].concat()));
    }
    out.push((b'F', [&[0.5, 2.0, 0.0][..], &down, &[1.0, 1.0, 1.0, 1.0, 0.0, 1.0]].concat()));
    for d in [0.0, 5e-324, 1e-170, 1.0, inf, nan] {
        out.push((b'B', [&[0.0, d, 0.25][..], &down, &[0.0, 0.0, -0.125, 1.0, 0.0, -1.0, 0.0]].concat()));
    }
    out.push((b'P', vec![-0.0, 0.6, 0.8, 1.0, 2.0]));
    out
}

// An arc's start and end and the polygons are left to the stored calls.
fn compare(n: u64, seed: u64) {
    let mut r = Random(seed);
    let (mut equal, mut different) = (0u64, 0u64);
    let mut table = [(0u64, 0u64); 256];
    let chosen = corners().into_iter();
    let random = LETTERS.iter().flat_map(|l| (0..n).map(move |_| *l)).map(|l| (l, call(l, &mut r)));
    for (letter, x) in chosen.chain(random) {
        let Some(theirs) = rust(letter, &x) else { continue };
        let ours = proved(letter, &x);
        table[letter as usize].0 += 1;
        table[letter as usize].1 += u64::from(theirs.is_some());
        if same(&theirs, &ours) {
            equal += 1;
            continue;
        }
        different += 1;
        if different <= 10 {
            println!("{}\n  the Rust {}\n  ours     {}", line(letter, &x), printed(letter, &theirs), printed(letter, &ours));
        }
    }
    for &l in LETTERS {
        let (calls, answers) = table[l as usize];
        println!("{}: {calls} calls, {answers} with an answer", l as char);
    }
    println!("{equal} equal, {different} different");
    std::process::exit(i32::from(different != 0));
}

// The corners, then N calls of each kind, those that the Rust can be asked; then the polygons.
fn sample(n: u64, seed: u64) {
    let mut r = Random(seed);
    let mut out = std::io::stdout().lock();
    for (letter, x) in corners() {
        if rust(letter, &x).is_some() {
            writeln!(out, "{}", line(letter, &x)).expect("output");
        }
    }
    for &letter in LETTERS {
        let mut left = n;
        while left > 0 {
            let x = call(letter, &mut r);
            if rust(letter, &x).is_some() {
                writeln!(out, "{}", line(letter, &x)).expect("output");
                left -= 1;
            }
        }
    }
    for (letter, x) in polygons::calls(seed) {
        writeln!(out, "{}", line(letter, &x)).expect("output");
    }
}

fn answers() {
    let mut out = std::io::stdout().lock();
    for l in std::io::stdin().lock().lines() {
        let l = l.expect("input");
        let letter = l.as_bytes()[0];
        let x: Vec<f64> = l.split(',').skip(1).map(|f| f64::from_bits(u64::from_str_radix(f, 16).expect("digits"))).collect();
        let answer = rust(letter, &x).expect("a call that the Rust can be asked");
        writeln!(out, "{}", printed(letter, &answer)).expect("output");
    }
}

fn main() {
    let args: Vec<String> = std::env::args().collect();
    let number = |i: usize, other: u64| args.get(i).map_or(other, |a| a.parse().expect("a number"));
    match args.get(1).map(String::as_str) {
        Some("compare") => compare(number(2, 100_000), number(3, 1)),
        Some("sample") => sample(number(2, 500), number(3, 1)),
        Some("answers") => answers(),
        _ => panic!("compare, sample or answers"),
    }
}
