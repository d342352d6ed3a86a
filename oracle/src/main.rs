//! The oracle: the original Rust behind document 01's text and listing.
//!
//! Without arguments it reads one sheet from standard input and prints its
//! listing. `--list [--to FOLDER] PATH..` writes the listing of each sheet
//! beside it, or into the folder, under the sheet's name with the ending
//! `.listing`; a path that is a folder stands for its files `*.sheet`.

mod checks;
mod contact;
mod decided;
mod geometry;
mod listing;
mod mechanism;
mod registry;
mod sheet;
mod text;

use std::io::{Read, Write};
use std::panic::catch_unwind;
use std::path::{Path, PathBuf};
use std::process::ExitCode;
use std::{env, fs, io};

/// Standard gravity, which the original reads from its crate's root. No
/// reading asks for it.
pub const G: f64 = 9.80665;

fn main() -> ExitCode {
    let args: Vec<String> = env::args().skip(1).collect();
    let words: Vec<&str> = args.iter().map(String::as_str).collect();
    let done = match words.as_slice() {
        [] => print_one(),
        ["--list", "--to", folder, paths @ ..] => list(Some(Path::new(folder)), paths),
        ["--list", paths @ ..] => list(None, paths),
        _ => Err(io::Error::other(
            "usage: oracle < SHEET, or oracle --list [--to FOLDER] PATH..",
        )),
    };
    match done {
        Ok(0) => ExitCode::SUCCESS,
        Ok(panics) => {
            eprintln!("oracle: {panics} sheets PANICKED");
            ExitCode::FAILURE
        }
        Err(error) => {
            eprintln!("oracle: {error}");
            ExitCode::FAILURE
        }
    }
}

/// Reads standard input, prints the listing. A panic ends the program.
fn print_one() -> io::Result<usize> {
    let mut text = Vec::new();
    io::stdin().read_to_end(&mut text)?;
    io::stdout().write_all(listing::listing(&text).as_bytes())?;
    Ok(0)
}

/// Writes the listing of every sheet; gives how many panicked.
fn list(folder: Option<&Path>, paths: &[&str]) -> io::Result<usize> {
    let mut panics = 0;
    for sheet in sheets(paths)? {
        let text = fs::read(&sheet)?;
        match catch_unwind(|| listing::listing(&text)) {
            Ok(listing) => fs::write(listing_path(&sheet, folder), listing)?,
            Err(_) => {
                eprintln!("oracle: PANIC on {}", sheet.display());
                panics += 1;
            }
        }
    }
    Ok(panics)
}

/// The files that the paths name, those of a folder sorted by name.
fn sheets(paths: &[&str]) -> io::Result<Vec<PathBuf>> {
    let mut all = Vec::new();
    for path in paths.iter().map(Path::new) {
        if path.is_dir() {
            let mut inside: Vec<PathBuf> = fs::read_dir(path)?
                .map(|entry| entry.map(|entry| entry.path()))
                .collect::<io::Result<_>>()?;
            inside.retain(|file| file.extension().is_some_and(|ending| ending == "sheet"));
            inside.sort();
            all.extend(inside);
        } else {
            all.push(path.to_path_buf());
        }
    }
    Ok(all)
}

fn listing_path(sheet: &Path, folder: Option<&Path>) -> PathBuf {
    let beside = sheet.with_extension("listing");
    match (folder, beside.file_name()) {
        (Some(folder), Some(name)) => folder.join(name),
        _ => beside,
    }
}
