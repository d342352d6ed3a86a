//! Rows through the static library `row_exports`, beside the original's: the governing row, its gap, the bearing by it, gradients and slips by a row's number, the points of both surfaces.
use crate::contact::{Row, Rows};
use crate::made_rows::{bearing_numbers, bits, made_up, place, value, Place, Value, HELD};
use crate::mechanism::{Mechanism, Pose};
use crate::splitmix::Random;

// A lent slice goes as a pointer and a length.
extern "C" {
    #[rustfmt::skip]
    fn sewqirun_governing(places: *const Place, places_count: usize, values: *const Value, values_count: usize, n: usize, pair: usize) -> usize;
    #[rustfmt::skip]
    fn sewqirun_gap(places: *const Place, places_count: usize, values: *const Value, values_count: usize, n: usize, pair: usize, x: f64) -> f64;
    #[rustfmt::skip]
    fn sewqirun_governing_record(places: *const Place, places_count: usize, values: *const Value, values_count: usize, pair: usize) -> usize;
    #[rustfmt::skip]
    fn sewqirun_gap_record(places: *const Place, places_count: usize, values: *const Value, values_count: usize, pair: usize, x: f64) -> f64;
    #[rustfmt::skip]
    fn sewqirun_bearing_record(out: *mut [f64; 4], text: *const u8, text_count: usize, places: *const Place, places_count: usize, values: *const Value, values_count: usize, pair: usize, x: f64) -> usize;
    #[rustfmt::skip]
    fn sewqirun_row_entries(out: *mut [f64; 16], entries: *const f64, count: usize, coords: usize, n: usize, i: usize) -> usize;
    fn sewqirun_surfaces(out: *mut [f64; 4], place: *const Place, value: *const Value);
}

fn all_bits(all: &[f64]) -> Vec<u64> {
    all.iter().map(|&x| bits(x)).collect()
}

// The governing row and its gap of every pair that a text can have, of the number behind and of the last number: of the first n rows, and of the first of them as records. Of the second halves of the rows only k are lent.
fn governing_alike(rows: &[Row], k: usize, n: usize) -> bool {
    let places: Vec<Place> = rows.iter().map(place).collect();
    let values: Vec<Value> = rows.iter().map(value).collect();
    let (p, v, all) = (places.as_ptr(), values.as_ptr(), rows.len());
    let first = Rows::of(rows[..n.min(k)].to_vec());
    let held = Rows::of(rows[..k.min(HELD)].to_vec());
    (0..=17).chain([u16::MAX]).all(|pair| {
        let number = usize::from(pair);
        let found = unsafe { (sewqirun_governing(p, all, v, k, n, number), sewqirun_governing_record(p, all, v, k, number)) };
        let gaps = [0.5, -0.25].map(|none| unsafe {
            (none, sewqirun_gap(p, all, v, k, n, number, none), sewqirun_gap_record(p, all, v, k, number, none))
        });
        found == (first.governing(pair).unwrap_or(n), held.governing(pair).unwrap_or(HELD))
            && gaps.iter().all(|&(none, gap, record)| {
                (bits(gap), bits(record)) == (bits(first.gap(pair).unwrap_or(none)), bits(held.gap(pair).unwrap_or(none)))
            })
    })
}

/// A reading: its text, what that says, and its rows.
pub struct Read<'a> {
    pub text: &'a [u8],
    pub mechanism: &'a Mechanism,
    pub pose: &'a Pose,
    pub rows: &'a Rows,
}

// The bearing of every pair that the text has, of the number behind and of the last number, by the first rows as records.
fn bearings_alike(read: &Read, rows: &[Row]) -> bool {
    let places: Vec<Place> = rows.iter().map(place).collect();
    let values: Vec<Value> = rows.iter().map(value).collect();
    let (t, p, v, all) = (read.text.as_ptr(), places.as_ptr(), values.as_ptr(), rows.len());
    let held = Rows::of(rows[..all.min(HELD)].to_vec());
    let pairs = u16::try_from(read.mechanism.pairs().len()).expect("at most sixteen pairs");
    (0..=pairs).chain([u16::MAX]).all(|pair| {
        [0.5, -0.25].into_iter().all(|none| {
            let mut out = [f64::NAN; 4];
            let how = unsafe { sewqirun_bearing_record(&mut out, t, read.text.len(), p, all, v, all, pair.into(), none) };
            let (expected, numbers) = bearing_numbers(read.mechanism.bearing(read.pose, &held, pair), none);
            how == expected && all_bits(&out) == all_bits(&numbers)
        })
    })
}

fn surfaces_alike(rows: &[Row]) -> bool {
    rows.iter().all(|row| {
        let mut out = [f64::NAN; 4];
        unsafe { sewqirun_surfaces(&mut out, &place(row), &value(row)) };
        let (a, b) = (row.on_a(), row.on_b());
        all_bits(&out) == all_bits(&[a.x, a.y, b.x, b.y])
    })
}

// Gradients or slips by the row's number; 12 with nothing written for the number behind the last and the last number, for seventeen coordinates, and where an entry of the last row is missing.
fn entries_alike(entries: &[f64], coords: usize, n: usize, row: impl Fn(usize) -> Vec<f64>) -> bool {
    let asked = |count: usize, coords: usize, i: usize| {
        let mut out = [0.375; 16];
        let refused = unsafe { sewqirun_row_entries(&mut out, entries.as_ptr(), count, coords, n, i) };
        (refused, out)
    };
    let none = (12, [0.375; 16]);
    let (count, last) = (entries.len(), n.saturating_sub(1));
    let refused = asked(count, coords, n) == none
        && asked(count, coords, usize::MAX) == none
        && asked(count, 17, last) == none
        && (count == 0 || asked(count - 1, coords, last) == none);
    refused && (0..n).all(|i| {
        let (refused, out) = asked(count, coords, i);
        refused == 0
            && all_bits(&out[..coords]) == all_bits(&row(i))
            && all_bits(&out[coords..]) == vec![0; 16 - coords]
    })
}

// All rows, some of them, and more than there are; then with some of the second halves missing.
fn alike(read: &Read, rows: &[Row], random: &mut Random) -> bool {
    let all = rows.len();
    let some = random.next() as usize % (all + 1);
    [(all, all), (all, some), (all, all + 3), (some, all)].into_iter().all(|(k, n)| governing_alike(rows, k, n))
        && bearings_alike(read, rows)
        && surfaces_alike(rows)
}

/// Whether the library answers as the original of the rows of one reading, of the same in the opposite order, and of two lists of made-up rows.
pub fn compare(read: &Read, random: &mut Random) -> bool {
    let rows = read.rows;
    let coords = rows.coords();
    let mut turned = rows.rows().to_vec();
    turned.reverse();
    alike(read, rows.rows(), random)
        && alike(read, &turned, random)
        && (0..2).all(|_| alike(read, &made_up(rows.rows(), random), random))
        && entries_alike(rows.all_grad(), coords, rows.len(), |i| rows.grad(i).to_vec())
        && entries_alike(rows.all_slip(), coords, rows.len(), |i| rows.slip(i).to_vec())
}
