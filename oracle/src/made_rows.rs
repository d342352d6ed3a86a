//! Rows as the library `row_exports` takes them, and rows that no reading made.
use crate::contact::{Bearing, Feature, HowItBears, PartId, Piece, Row};
use crate::geometry::{Dir, Point};
use crate::splitmix::Random;

/// A row as the library takes it: its pair, and the letter, part and segment of both pieces.
pub type Place = [usize; 7];
/// Its gap, normal and point.
pub type Value = [f64; 5];

fn letters(piece: Piece) -> [usize; 3] {
    match piece {
        Piece::Segment { part, seg } => [0, part.0.into(), seg.into()],
        Piece::Arc { part, seg } => [1, part.0.into(), seg.into()],
        Piece::Vertex { part, seg } => [2, part.0.into(), seg.into()],
        Piece::Center { part } => [3, part.0.into(), 0],
    }
}

/// Its first half.
pub fn place(row: &Row) -> Place {
    let (a, b) = (letters(row.feature.a), letters(row.feature.b));
    [row.pair.into(), a[0], a[1], a[2], b[0], b[1], b[2]]
}

/// Its second half.
pub fn value(row: &Row) -> Value {
    let n = row.normal.vector();
    [row.gap, n.x, n.y, row.point.x, row.point.y]
}

/// One pattern for all NaNs.
pub fn bits(x: f64) -> u64 {
    if x.is_nan() { 0x7ff8_0000_0000_0000 } else { x.to_bits() }
}

/// How many records the library holds.
pub const HELD: usize = 64;

/// How a pair bears, 0 where it does not; the gap, the point and the slope, with a number for a slope that is missing.
pub fn bearing_numbers(found: Option<Bearing>, none: f64) -> (usize, [f64; 4]) {
    let Some(b) = found else { return (0, [0.0; 4]) };
    let how = match b.how {
        HowItBears::Flat => 1,
        HowItBears::StopEdge => 2,
        HowItBears::KeyCorner => 3,
    };
    (how, [b.gap, b.point.x, b.point.y, b.slope.unwrap_or(none)])
}

fn some_float(random: &mut Random) -> f64 {
    const ODD: [f64; 8] = [0.0, -0.0, f64::NAN, f64::INFINITY, f64::NEG_INFINITY, 5e-324, -0.001, f64::MAX];
    match random.next() % 4 {
        0 => ODD[random.next() as usize % 8],
        1 => f64::from_bits(random.next()),
        _ => (random.next() % 9) as f64 * 0.25 - 1.0,
    }
}

fn some_piece(random: &mut Random) -> Piece {
    let (part, seg) = (PartId(random.next() as u16), random.next() as u16);
    match random.next() % 4 {
        0 => Piece::Segment { part, seg },
        1 => Piece::Arc { part, seg },
        2 => Piece::Vertex { part, seg },
        _ => Piece::Center { part },
    }
}

fn some_row(random: &mut Random) -> Row {
    Row {
        pair: match random.next() % 8 {
            0 => random.next() as u16,
            1 => u16::MAX,
            k => (k % 3) as u16,
        },
        feature: Feature { a: some_piece(random), b: some_piece(random) },
        gap: some_float(random),
        normal: Dir::new(some_float(random), some_float(random)).unwrap_or(Dir::Y),
        point: Point::new(some_float(random), some_float(random)),
    }
}

/// A reading's rows in another order, some with another gap or another pair, some with a piece that is missing, with the sides' pieces exchanged or with a centre; rows that no reading made among them.
pub fn made_up(rows: &[Row], random: &mut Random) -> Vec<Row> {
    let mut made: Vec<Row> = rows.to_vec();
    for i in 0..made.len() {
        let j = random.next() as usize % made.len();
        made.swap(i, j);
        match random.next() % 4 {
            0 => made[i].gap = some_float(random),
            1 => made[i].pair = (random.next() % 17) as u16,
            2 => made[i].gap = made[j].gap,
            _ => {}
        }
        let Feature { a, b } = made[i].feature;
        match random.next() % 12 {
            0 => made[i].feature = Feature { a: some_piece(random), b },
            1 => made[i].feature = Feature { a, b: some_piece(random) },
            2 => made[i].feature = Feature { a: b, b: a },
            3 => made[i].feature = Feature { a, b: Piece::Center { part: PartId((random.next() % 3) as u16) } },
            4 => made[i].feature = Feature { a: made[j].feature.a, b },
            5 => made[i].normal = Dir::new(some_float(random), some_float(random)).unwrap_or(Dir::Y),
            _ => {}
        }
    }
    // Now and then more than the library holds as records.
    let more = if random.next() % 16 == 0 { HELD as u64 } else { 0 };
    for _ in 0..more + random.next() % 12 {
        let at = random.next() as usize % (made.len() + 1);
        made.insert(at, some_row(random));
    }
    made
}
