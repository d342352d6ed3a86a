//! Prints the listing of the sheet on standard input, by the proved library.
use std::io::{Read, Write};

const LONGEST: usize = 192_352;

unsafe extern "C" {
    fn sewqirun_longest() -> usize;
    fn sewqirun_listing(text: *const u8, length: usize, out: *mut u8) -> usize;
}

/// The listing of a sheet text.
fn listing(text: &[u8]) -> Vec<u8> {
    let mut out = vec![0; LONGEST];
    // The library reads `text.len()` bytes at `text` and writes at most LONGEST bytes at `out`.
    let n = unsafe { sewqirun_listing(text.as_ptr(), text.len(), out.as_mut_ptr()) };
    out.truncate(n);
    out
}

fn main() {
    assert_eq!(unsafe { sewqirun_longest() }, LONGEST, "the example and the library do not agree");
    let mut text = Vec::new();
    std::io::stdin().read_to_end(&mut text).expect("input");
    std::io::stdout().write_all(&listing(&text)).expect("output");
}
