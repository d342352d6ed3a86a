//! Calls of the polygon test: chosen and random polygons of at most six corners, each with a point.
//! A call's letter is the number of corners; its floats are the point's two, then two of each corner.
use crate::splitmix::Random;

type Spot = [f64; 2];
type Call = (u8, Vec<f64>);

const TRIANGLE: [Spot; 3] = [[0.0, 0.0], [4.0, 0.0], [2.0, 4.0]];
const SQUARE: [Spot; 4] = [[0.0, 0.0], [4.0, 0.0], [4.0, 4.0], [0.0, 4.0]];
const BOW_TIE: [Spot; 4] = [[0.0, 0.0], [4.0, 4.0], [4.0, 0.0], [0.0, 4.0]];

const SHAPES: &[&[Spot]] = &[
    &[],
    &[[2.0, 2.0]],
    // Two corners: across, level, upright.
    &[[0.0, 0.0], [4.0, 4.0]],
    &[[0.0, 2.0], [4.0, 2.0]],
    &[[2.0, 0.0], [2.0, 4.0]],
    &TRIANGLE,
    &[[0.0, 4.0], [4.0, 2.0], [0.0, 0.0]],
    // The square from each of its corners: each of its edges is the first one, the closing one and one between.
    &SQUARE,
    &[[4.0, 0.0], [4.0, 4.0], [0.0, 4.0], [0.0, 0.0]],
    &[[4.0, 4.0], [0.0, 4.0], [0.0, 0.0], [4.0, 0.0]],
    &[[0.0, 4.0], [0.0, 0.0], [4.0, 0.0], [4.0, 4.0]],
    &[[2.0, 0.0], [4.0, 2.0], [2.0, 4.0], [0.0, 2.0]],
    &BOW_TIE,
    // Concave ones, with four, five and six corners.
    &[[0.0, 0.0], [4.0, 0.0], [1.0, 1.0], [0.0, 4.0]],
    &[[0.0, 0.0], [4.0, 0.0], [4.0, 4.0], [2.0, 1.0], [0.0, 4.0]],
    &[[0.0, 0.0], [4.0, 0.0], [4.0, 2.0], [2.0, 2.0], [2.0, 4.0], [0.0, 4.0]],
    // A star that crosses itself, a hexagon.
    &[[2.0, 4.0], [1.0, 0.0], [4.0, 3.0], [0.0, 2.0], [3.0, 0.0]],
    &[[1.0, 0.0], [3.0, 0.0], [4.0, 2.0], [3.0, 4.0], [1.0, 4.0], [0.0, 2.0]],
    // Repeated corners: neighbours, the last as the first, all, the whole triangle.
    &[[0.0, 0.0], [4.0, 0.0], [4.0, 0.0], [2.0, 4.0], [2.0, 4.0]],
    &[[0.0, 0.0], [4.0, 0.0], [2.0, 4.0], [0.0, 0.0]],
    &[[2.0, 1.0], [2.0, 1.0], [2.0, 1.0]],
    &[[0.0, 0.0], [4.0, 0.0], [2.0, 4.0], [0.0, 0.0], [4.0, 0.0], [2.0, 4.0]],
];

fn call(p: Spot, corners: &[Spot]) -> Call {
    (b'0' + corners.len() as u8, [&[p], corners].concat().concat())
}

// Each shape with the points of a grid: at corners, on edges, level with one corner or two, inside, and outside on each side.
fn shapes(out: &mut Vec<Call>) {
    for corners in SHAPES {
        for y in [-1.0, 0.0, 1.0, 2.0, 4.0] {
            for x in [-1.0, 0.0, 1.0, 2.0, 3.5] {
                out.push(call([x, y], corners));
            }
        }
    }
}

// One coordinate of one corner is no plain number.
fn odd_corners(out: &mut Vec<Call>) {
    for base in [&TRIANGLE[..], &SQUARE[..]] {
        for place in 0..2 * base.len() {
            for v in [f64::NAN, f64::INFINITY, f64::NEG_INFINITY, 5e-324] {
                let mut corners = base.to_vec();
                corners[place / 2][place % 2] = v;
                for p in [[1.0, 1.0], [3.0, 2.0], [-1.0, 1.0]] {
                    out.push(call(p, &corners));
                }
            }
        }
    }
}

// Two neighbours whose ordinates, then whose abscissas, are infinite, huge or NaN; the point has such an ordinate too.
fn odd_edges(out: &mut Vec<Call>) {
    let odd = [f64::NAN, f64::INFINITY, f64::NEG_INFINITY, f64::MAX, f64::MIN];
    for a in odd {
        for b in odd {
            let upright = [[0.0, a], [4.0, b], [2.0, 1.0]];
            let level = [[a, 0.0], [b, 4.0], [2.0, 1.0]];
            for (p, corners) in [([1.0, 1.0], upright), ([1.0, a], upright), ([-1.0, b], upright), ([1.0, 2.0], level), ([b, 2.0], level)] {
                out.push(call(p, &corners));
            }
        }
    }
}

fn odd_points(out: &mut Vec<Call>) {
    let odd = [f64::NAN, f64::INFINITY, f64::NEG_INFINITY, 0.0, -0.0, -5e-324, f64::MIN];
    for x in odd {
        for y in odd {
            out.push(call([x, y], &[[-1.0, -1.0], [1.0, -1.0], [1.0, 1.0], [-1.0, 1.0]]));
        }
    }
}

// Zeros of both signs, in the corners and in the point.
fn zeros(out: &mut Vec<Call>) {
    let level = [[0.0, 0.0], [4.0, -0.0], [4.0, 4.0], [-0.0, 4.0]];
    let corner = [[-0.0, -0.0], [4.0, 0.0], [0.0, 4.0]];
    let upright = [[-0.0, -1.0], [0.0, 1.0], [-1.0, 0.0]];
    for corners in [&level[..], &corner[..], &upright[..]] {
        for x in [0.0, -0.0, 1.0, -0.5] {
            for y in [0.0, -0.0, 0.5] {
                out.push(call([x, y], corners));
            }
        }
    }
}

// Shapes about the origin, from subnormal ones to ones whose edges are longer than every finite number; between, products of two differences vanish or overflow.
fn scaled(out: &mut Vec<Call>) {
    for s in [5e-324, 5e-321, f64::MIN_POSITIVE, 2f64.powi(-540), 2f64.powi(510), 2f64.powi(600), 2f64.powi(1022)] {
        let at = |p: Spot| [(p[0] - 2.0) * s, (p[1] - 2.0) * s];
        for shape in [&TRIANGLE[..], &SQUARE[..], &BOW_TIE[..]] {
            let corners: Vec<Spot> = shape.iter().map(|p| at(*p)).collect();
            for p in [[1.0, 1.0], [2.0, 3.0], [3.0, 2.0], [0.0, 1.0], [1.0, 2.0]] {
                out.push(call(at(p), &corners));
            }
        }
    }
}

fn random(r: &mut Random, number: fn(&mut Random) -> f64) -> Call {
    let n = 2 + r.below(5);
    let mut spot = || [number(r), number(r)];
    let corners: Vec<Spot> = (0..n).map(|_| spot()).collect();
    call(spot(), &corners)
}

// A whole number from -2 to 2, and -0.0 now and then.
fn whole(r: &mut Random) -> f64 {
    let v = r.below(5) as f64 - 2.0;
    if r.below(4) == 0 { -v } else { v }
}

pub fn calls(seed: u64) -> Vec<Call> {
    let mut out = Vec::new();
    shapes(&mut out);
    odd_corners(&mut out);
    odd_edges(&mut out);
    odd_points(&mut out);
    zeros(&mut out);
    scaled(&mut out);
    let mut r = Random(seed);
    out.extend((0..300).map(|_| random(&mut r, whole)));
    out.extend((0..100).map(|_| random(&mut r, |r| f64::from_bits(r.next()))));
    out.extend((0..100).map(|_| random(&mut r, Random::wild)));
    out
}
