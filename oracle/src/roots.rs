// Compares the proved root with the processor's, and times both.
mod splitmix;

use splitmix::Random;
use std::hint::black_box;
use std::time::Instant;

extern "C" {
    fn sewqirun_root(x: f64) -> f64;
}

// The proved root takes any double and has no other demand.
fn root(x: f64) -> f64 {
    unsafe { sewqirun_root(x) }
}

struct Tally {
    tried: u64,
    different: u64,
}

impl Tally {
    fn one(&mut self, x: f64) {
        let (ours, theirs) = (root(x), x.sqrt());
        self.tried += 1;
        if ours.is_nan() && theirs.is_nan() || ours.to_bits() == theirs.to_bits() {
            return;
        }
        self.different += 1;
        if self.different <= 10 {
            println!("root of {:016x}: {:016x}, the processor's {:016x}", x.to_bits(), ours.to_bits(), theirs.to_bits());
        }
    }

    fn bits(&mut self, b: u64) {
        self.one(f64::from_bits(b));
    }

    fn with_neighbours(&mut self, x: f64) {
        let b = x.to_bits();
        for n in [b.wrapping_sub(1), b, b.wrapping_add(1)] {
            self.bits(n);
        }
    }
}

const DIGITS: u64 = (1 << 52) - 1;

// Each sign and exponent with the lowest, the highest and some other significands: zeros, subnormals, infinities and NaNs among them.
fn each_exponent(t: &mut Tally, r: &mut Random) {
    for top in 0..4096u64 {
        for k in 0..24 {
            t.bits(top << 52 | k);
            t.bits(top << 52 | (DIGITS - k));
            t.bits(top << 52 | (r.next() & DIGITS));
        }
    }
}

// Patterns of any kind, numbers from 1 to 4, subnormals, and squares with their neighbours.
fn random(t: &mut Tally, r: &mut Random, n: u64) {
    for _ in 0..n {
        t.bits(r.next());
        t.bits((r.next() & DIGITS) | (0x3ff + (r.next() & 1)) << 52);
        t.bits(r.next() & DIGITS);
        let half = f64::from_bits((r.next() >> 38 << 26) & DIGITS | (0x200 + r.next() % 0x400) << 52);
        t.with_neighbours(half * half);
        let whole = f64::from_bits(r.next() & DIGITS | 0x3ff << 52);
        t.with_neighbours(whole * whole);
    }
}

fn nanoseconds(xs: &[f64], f: impl Fn(f64) -> f64) -> (f64, f64) {
    let rounds = 2000;
    let calls = (rounds * xs.len()) as f64;
    let start = Instant::now();
    let mut sum = 0.0;
    for _ in 0..rounds {
        for &x in xs {
            sum += f(x);
        }
    }
    black_box(sum);
    let apart = start.elapsed().as_secs_f64();
    let start = Instant::now();
    let mut y = 2.0;
    for _ in 0..rounds {
        for &x in xs {
            y = f(y) + x;
        }
    }
    black_box(y);
    let chained = start.elapsed().as_secs_f64();
    (apart / calls * 1e9, chained / calls * 1e9)
}

fn main() {
    let n = std::env::args().nth(1).map_or(1_500_000, |a| a.parse().expect("a number"));
    let mut r = Random(1);
    let mut t = Tally { tried: 0, different: 0 };
    each_exponent(&mut t, &mut r);
    random(&mut t, &mut r, n);
    let xs: Vec<f64> = (0..4096).map(|_| f64::from_bits(r.next() & DIGITS | (0x3e5 + r.next() % 40) << 52)).collect();
    for name in ["first run", "second run"] {
        let (ours, ours_chained) = nanoseconds(&xs, root);
        let (theirs, theirs_chained) = nanoseconds(&xs, f64::sqrt);
        println!("{name}: {ours:.1} ns a call, the processor's {theirs:.1}; each waiting for the last {ours_chained:.1}, the processor's {theirs_chained:.1}");
    }
    println!("{} equal, {} different", t.tried - t.different, t.different);
    std::process::exit(i32::from(t.different != 0));
}
