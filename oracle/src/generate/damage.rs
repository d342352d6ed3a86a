//! Damaged texts: a valid text changed in its bytes, fields or lines.

use crate::random::Rng;

type Lines = Vec<Vec<u8>>;

fn split(text: &[u8]) -> Lines {
    text.split_inclusive(|&byte| byte == b'\n')
        .map(<[u8]>::to_vec)
        .collect()
}

/// A line dropped, doubled, swapped with another, or moved.
fn move_line(rng: &mut Rng, lines: &mut Lines) {
    let (i, j) = (rng.below(lines.len()), rng.below(lines.len()));
    match rng.below(5) {
        0 => {
            lines.remove(i);
        }
        1 => lines.insert(j, lines[i].clone()),
        2 => lines.swap(i, j),
        3 => {
            let line = lines.remove(i);
            lines.insert(j.min(lines.len()), line);
        }
        _ => lines.insert(i, b"\n".to_vec()),
    }
}

/// A field dropped, added, emptied or replaced.
fn change_field(rng: &mut Rng, line: &mut Vec<u8>) {
    let text = String::from_utf8_lossy(line).trim_end().to_string();
    let mut fields: Vec<&str> = text.split(',').collect();
    let k = rng.below(fields.len());
    let new = rng.pick(&[
        "0", "00", "01", "1", "16", "17", "65535", "65536", "65537", "99999", "100000", "-1", "+1",
        " 1", "1 ", "", "A", "B", "C", "E", "F", "G", "L", "M", "N", "O", "P", "R", "S", "T",
        "0000000000000000", "3ff0000000000000", "3FF0000000000000", "3ff000000000000",
        "3ff00000000000000", "7ff8000000000000", "fff0000000000001", "0x0000000000000g", "1.5",
        "nan", "\"1\"", "4294967297", "18446744073709551617",
    ]);
    match rng.below(5) {
        0 => {
            fields.remove(k);
        }
        1 => fields.insert(k, new),
        2 => fields.push(rng.pick(&["", "0", "0000000000000000"])),
        _ => fields[k] = new,
    }
    *line = fields.join(",").into_bytes();
    line.push(b'\n');
}

/// A byte changed, dropped or added.
fn change_byte(rng: &mut Rng, text: &mut Vec<u8>) {
    if text.is_empty() {
        return;
    }
    let k = rng.below(text.len());
    let byte = rng.pick(b"\r\n\t ,;0aAfFgM\0\x7f\xff\"");
    match rng.below(4) {
        0 => {
            text.remove(k);
        }
        1 => text.insert(k, byte),
        2 => text[k] = (rng.bits() & 0xff) as u8,
        _ => text[k] = byte,
    }
}

/// Carriage returns at one line's end or at all.
fn carriage_returns(rng: &mut Rng, text: &[u8]) -> Vec<u8> {
    let mut lines = split(text);
    let only = rng.below(lines.len());
    let all = rng.once_in(2);
    for (i, line) in lines.iter_mut().enumerate() {
        if all || i == only {
            line.pop();
            line.extend(b"\r\n");
        }
    }
    lines.concat()
}

/// A text of about 65,536 bytes: many T lines, which count for nothing but
/// 11, and a last line that fills it up.
fn very_long(rng: &mut Rng) -> Vec<u8> {
    let length = rng.pick(&[65_535, 65_536, 65_537, 65_538, 70_000, 200_000]);
    let mut text = b"M,0\nG,0000000000000000\n".to_vec();
    let line = b"T,0000000000000000,0000000000000000,3ff0000000000000\n";
    while text.len() + line.len() <= length {
        text.extend(line);
    }
    let fill = length - text.len();
    match rng.below(3) {
        0 => text.resize(length, b'T'),
        1 => text.truncate(length - fill),
        _ if fill > 0 => {
            text.resize(length - 1, b'0');
            text.push(b'\n');
        }
        _ => {}
    }
    text
}

/// A well-formed text of exactly 65,536 bytes, or one above or below.
fn well_formed_at_the_limit(rng: &mut Rng) -> Vec<u8> {
    let length = rng.pick(&[65_535_usize, 65_536, 65_537]);
    let entry = b"T,0000000000000000,0000000000000000,3ff0000000000000\n";
    let mut head = b"M,0\n".to_vec();
    loop {
        let left = length.saturating_sub(head.len() + 19);
        if left % entry.len() == 0 {
            break;
        }
        head.extend(b"J,G,0\n".as_slice());
        if head.len() > 2000 {
            head = rng.pick(&[b"M,1\n", b"M,0\n"]).to_vec();
            head.extend(b"K,F\nS,A,0,0,1\n");
            break;
        }
    }
    head.extend(b"G,0000000000000000\n");
    while head.len() + entry.len() <= length {
        head.extend(entry);
    }
    head
}

/// A very short text.
fn tiny(rng: &mut Rng) -> Vec<u8> {
    let texts: [&[u8]; 16] = [
        b"",
        b"\n",
        b"M,0\n",
        b"M,0",
        b"G,0000000000000000\n",
        b"M,0\nG,0000000000000000\n",
        b"M,0\nG,0000000000000000",
        b"M,0\nG,0000000000000000\n\n",
        b"M,16\nG,0000000000000000\n",
        b"M,17\nG,0000000000000000\n",
        b"M,65535\nG,0000000000000000\n",
        b"M,65536\nG,0000000000000000\n",
        b"J,G,0\nM,0\nG,0000000000000000\n",
        b"M,0\nT,0000000000000000,0000000000000000,3ff0000000000000\nG,0000000000000000\n",
        b"M,0\nM,0\nG,0000000000000000\n",
        b"M,0\nG,0000000000000000\nG,0000000000000000\n",
    ];
    rng.pick(&texts).to_vec()
}

/// A pair's two sides in the wrong order, or lines of a later kind early.
fn disorder(rng: &mut Rng, lines: &mut Lines) {
    let first = |lines: &Lines, start: &[u8]| lines.iter().position(|l| l.starts_with(start));
    let start = rng.pick(&[b"S,B", b"S,A", b"K,F", b"P,0", b"P,1", b"J,R", b"G,0", b"T,0"]);
    if let Some(i) = first(lines, start) {
        let line = lines.remove(i);
        let j = rng.pick(&[i.saturating_sub(1), i + 1, 0, lines.len()]);
        lines.insert(j.min(lines.len()), line);
    }
}

/// Damages a valid text.
pub fn damage(rng: &mut Rng, text: &[u8]) -> Vec<u8> {
    let mut lines = split(text);
    match rng.below(16) {
        0..=3 => move_line(rng, &mut lines),
        4..=7 => {
            let k = rng.below(lines.len());
            change_field(rng, &mut lines[k]);
        }
        8 => disorder(rng, &mut lines),
        9 | 10 => {
            let mut text = text.to_vec();
            change_byte(rng, &mut text);
            return text;
        }
        11 => return carriage_returns(rng, text),
        12 => return very_long(rng),
        13 => return well_formed_at_the_limit(rng),
        14 => return tiny(rng),
        _ => {
            let mut text = text.to_vec();
            text.truncate(text.len() - rng.pick(&[1, 1, 2, 20]).min(text.len()));
            return text;
        }
    }
    if rng.once_in(4) && !lines.is_empty() {
        move_line(rng, &mut lines);
    }
    lines.concat()
}
