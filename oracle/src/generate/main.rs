//! A seeded generator of sheet texts.
//!
//! `generate [--only FAMILY] FOLDER N [SEED]` writes FOLDER/000000.sheet and
//! so on; sheet i of a seed depends on i and the seed alone. `generate --plain
//! FOLDER N SEED` leaves the families about an axis of -0.0 out. `generate
//! --samples FOLDER` writes the samples of `sheets/`, `generate --findings
//! FOLDER` those of `oracle/findings/`, `generate --chosen
//! FOLDER` corners that random sheets do not meet; `generate --families` names the
//! families.

mod bearings;
mod damage;
mod deep;
mod grid;
mod limits;
mod mirrored;
mod outline;
mod rails;
mod random;
mod refusals;
mod round;
mod samples;
mod shapes;
mod sheet;
mod trade;
mod wild;

use random::Rng;
use sheet::Sheet;
use std::path::Path;
use std::process::ExitCode;
use std::{env, fs, io};

#[cfg(real_libm)]
pub use libm::{cos as cosine, sin as sine};

#[cfg(not(real_libm))]
pub fn sine(x: f64) -> f64 {
    x.sin()
}

#[cfg(not(real_libm))]
pub fn cosine(x: f64) -> f64 {
    x.cos()
}

/// Weight, name and maker of a family of valid sheets.
type Valid = (usize, &'static str, fn(&mut Rng) -> Sheet);

const VALID: [Valid; 24] = [
    (14, "key_over_rails", trade::key_over_rails),
    (8, "block_on_punching", trade::block_on_punching),
    (8, "pin_in_mortise", trade::pin_in_mortise),
    (20, "random_outlines", shapes::random_outlines),
    (14, "grid", grid::grid),
    (9, "exact_gap", grid::exact_gap),
    (3, "deep_centre", grid::deep_centre),
    (7, "flat", bearings::flat),
    (5, "tilted", bearings::tilted),
    (5, "key_corner", bearings::key_corner),
    (4, "no_placed_length", bearings::no_placed_length),
    (5, "huge_turn", bearings::huge_turn),
    (4, "far_away", bearings::far_away),
    (7, "sunk", deep::sunk),
    (4, "driven_through", deep::driven_through),
    (4, "thin_plate", deep::thin_plate),
    (5, "corner_in_corner", deep::corner_in_corner),
    (5, "round_on_round", round::round_on_round),
    (4, "tip_in_edge", round::tip_in_edge),
    (3, "negative_radii", round::negative_radii),
    (4, "sector_edge", round::sector_edge),
    (6, "turned_rim", round::turned_rim),
    (3, "ball", round::ball),
    (3, "waisted", round::waisted),
];

/// Weight, name and maker of a family of texts.
type Family = (usize, &'static str, fn(&mut Rng) -> Vec<u8>);

const FAMILIES: [Family; 6] = [
    (60, "valid", |rng| valid(rng).text()),
    (17, "wild", wild_text),
    (5, "limits", |rng| limits::at_limit(rng).text()),
    (2, "one_above", |rng| limits::one_above(rng).text()),
    (9, "refusals", refused_text),
    (9, "damaged", damaged_text),
];

/// Families of texts about an axis of -0.0.
const MINUS_ZERO: [Family; 2] = [
    (14, "minus_zero", |rng| mirrored::about_minus_zero(rng).text()),
    (6, "mirrored", mirrored_text),
];

/// A sheet of one of the families of valid sheets.
fn valid(rng: &mut Rng) -> Sheet {
    let all: usize = VALID.iter().map(|family| family.0).sum();
    let mut left = rng.below(all);
    for (weight, _, make) in VALID {
        if left < weight {
            return make(rng);
        }
        left -= weight;
    }
    unreachable!("the weights add up to more than any pick")
}

/// A valid sheet with wild floats.
fn wild_text(rng: &mut Rng) -> Vec<u8> {
    let mut sheet = valid(rng);
    wild::change(rng, &mut sheet);
    sheet.text()
}

/// A valid sheet with turned parts, their axes at -0.0.
fn mirrored_text(rng: &mut Rng) -> Vec<u8> {
    let mut sheet = valid(rng);
    while !mirrored::has_turned(&sheet) {
        sheet = valid(rng);
    }
    mirrored::set_axes(&mut sheet);
    sheet.text()
}

/// A valid sheet with faults that are refused by number.
fn refused_text(rng: &mut Rng) -> Vec<u8> {
    let mut sheet = valid(rng);
    refusals::fault(rng, &mut sheet);
    sheet.text()
}

/// The damaged text of a valid sheet, at times of one with faults.
fn damaged_text(rng: &mut Rng) -> Vec<u8> {
    let text = if rng.once_in(6) {
        refused_text(rng)
    } else {
        valid(rng).text()
    };
    damage::damage(rng, &text)
}

/// A text of one of the families.
fn some_text(rng: &mut Rng, families: &[Family]) -> Vec<u8> {
    let all: usize = families.iter().map(|family| family.0).sum();
    let mut left = rng.below(all);
    for &(weight, _, make) in families {
        if left < weight {
            return make(rng);
        }
        left -= weight;
    }
    unreachable!("the weights add up to more than any pick")
}

/// All families of texts.
fn families() -> Vec<Family> {
    [&FAMILIES[..], &MINUS_ZERO].concat()
}

/// A text of any family.
fn any(rng: &mut Rng) -> Vec<u8> {
    some_text(rng, &families())
}

/// Texts for the comparison of refusals: every other one damaged.
fn half_damaged(index: u64, rng: &mut Rng) -> Vec<u8> {
    if index % 2 == 0 {
        damaged_text(rng)
    } else {
        any(rng)
    }
}

/// A text of the family of that name.
fn only(name: &str, rng: &mut Rng) -> Option<Vec<u8>> {
    let valid = VALID.iter().find(|family| family.1 == name);
    if let Some((_, _, make)) = valid {
        return Some(make(rng).text());
    }
    let family = families().into_iter().find(|family| family.1 == name);
    family.map(|(_, _, make)| make(rng))
}

/// Which texts to write.
enum Choice<'a> {
    Any,
    Plain,
    HalfDamaged,
    Only(&'a str),
}

/// Writes `count` sheets into a folder.
fn write(folder: &str, count: u64, seed: u64, choice: &Choice) -> io::Result<()> {
    fs::create_dir_all(folder)?;
    for index in 0..count {
        let mut rng = Rng::new(seed, index);
        let text = match choice {
            Choice::Only(name) => {
                only(name, &mut rng).ok_or(io::Error::other("no such family"))?
            }
            Choice::HalfDamaged => half_damaged(index, &mut rng),
            Choice::Plain => some_text(&mut rng, &FAMILIES),
            Choice::Any => any(&mut rng),
        };
        fs::write(Path::new(folder).join(format!("{index:06}.sheet")), text)?;
    }
    Ok(())
}

fn write_samples(folder: &str, samples: &[(&str, Sheet)]) -> io::Result<()> {
    fs::create_dir_all(folder)?;
    for (name, sheet) in samples {
        fs::write(Path::new(folder).join(format!("{name}.sheet")), sheet.text())?;
    }
    Ok(())
}

fn name_families() {
    for (_, name, _) in VALID {
        println!("{name}");
    }
    for (_, name, _) in families() {
        println!("{name}");
    }
}

fn run(words: &[&str]) -> io::Result<()> {
    let usage = || {
        io::Error::other(
            "usage: generate [--only FAMILY | --half-damaged | --plain] FOLDER N [SEED]",
        )
    };
    let number = |word: &str| word.parse::<u64>().map_err(|_| usage());
    match words {
        ["--families"] => {
            name_families();
            Ok(())
        }
        ["--samples", folder] => write_samples(folder, &samples::all()),
        ["--findings", folder] => write_samples(folder, &samples::findings()),
        ["--chosen", folder] => write_samples(folder, &samples::chosen())
            .and_then(|()| write_samples(folder, &rails::chosen())),
        ["--only", family, folder, count] => {
            write(folder, number(count)?, 1, &Choice::Only(family))
        }
        ["--only", family, folder, count, seed] => {
            write(folder, number(count)?, number(seed)?, &Choice::Only(family))
        }
        ["--half-damaged", folder, count, seed] => {
            write(folder, number(count)?, number(seed)?, &Choice::HalfDamaged)
        }
        ["--plain", folder, count, seed] => {
            write(folder, number(count)?, number(seed)?, &Choice::Plain)
        }
        [folder, count] => write(folder, number(count)?, 1, &Choice::Any),
        [folder, count, seed] => write(folder, number(count)?, number(seed)?, &Choice::Any),
        _ => Err(usage()),
    }
}

fn main() -> ExitCode {
    if !cfg!(real_libm) {
        eprintln!("generate: built without the libm crate, sines and cosines are those of std");
    }
    let args: Vec<String> = env::args().skip(1).collect();
    let words: Vec<&str> = args.iter().map(String::as_str).collect();
    match run(&words) {
        Ok(()) => ExitCode::SUCCESS,
        Err(error) => {
            eprintln!("generate: {error}");
            ExitCode::FAILURE
        }
    }
}
