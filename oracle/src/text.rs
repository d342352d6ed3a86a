//! The reader of a sheet text: first each line by itself (its newline, its
//! fields, the form of its record), then the order of the records.

use crate::sheet::{
    placeless, BodyLine, Entry, Hang, PairLines, PartHead, PartLines, RangeLine, Refusal,
    RoleLetter, SegLine, Sheet, SideLetter, SweepFields, Two,
};

/// The longest text that is looked at, in bytes.
const LONGEST: usize = 65_536;

/// One well-formed line.
enum Record {
    Coordinates(u16),
    Body(BodyLine),
    Part(PartHead),
    Segment(SegLine),
    Pair { centered: bool },
    Range(SideLetter, RangeLine),
    Margin(f64),
    Entry(Entry),
}

/// Reads a text into a sheet, or gives refusal 1 or 2.
pub fn read(text: &[u8]) -> Result<Sheet, Refusal> {
    if text.len() > LONGEST {
        return Err(placeless(1));
    }
    let mut reading = Reading::default();
    let mut lines = 0;
    for line in text.split_inclusive(|&byte| byte == b'\n') {
        lines += 1;
        let taken = record(line).is_some_and(|record| reading.take(record));
        if !taken {
            return Err(malformed(lines));
        }
    }
    if reading.margin_seen && reading.coordinates_seen {
        Ok(reading.sheet)
    } else {
        Err(malformed(lines + 1))
    }
}

fn malformed(line: usize) -> Refusal {
    Refusal {
        number: 2,
        place: line,
    }
}

// ---- One line by itself ----

/// The record on a line, newline included; none where it is malformed.
fn record(line: &[u8]) -> Option<Record> {
    let line = line.strip_suffix(b"\n")?;
    let fields: Vec<&[u8]> = line.split(|&byte| byte == b',').collect();
    match fields[0] {
        b"M" => coordinates(&fields),
        b"J" => body(&fields),
        b"P" => part(&fields),
        b"L" => line_segment(&fields),
        b"A" => arc_segment(&fields),
        b"K" => pair(&fields),
        b"S" => range(&fields),
        b"G" => margin(&fields),
        b"T" => entry(&fields),
        _ => None,
    }
}

/// A whole number: decimal, at most 65,535, no leading zero.
fn whole(field: &[u8]) -> Option<u16> {
    let digits = field.len();
    let plain = field.iter().all(u8::is_ascii_digit);
    if digits == 0 || digits > 5 || !plain || (digits > 1 && field[0] == b'0') {
        return None;
    }
    let value = field
        .iter()
        .fold(0u32, |sum, digit| 10 * sum + u32::from(digit - b'0'));
    u16::try_from(value).ok()
}

/// A float: exactly sixteen lowercase hexadecimal digits of its bits.
fn float(field: &[u8]) -> Option<f64> {
    if field.len() != 16 {
        return None;
    }
    let mut bits = 0u64;
    for &byte in field {
        let digit = match byte {
            b'0'..=b'9' => byte - b'0',
            b'a'..=b'f' => byte - b'a' + 10,
            _ => return None,
        };
        bits = 16 * bits + u64::from(digit);
    }
    Some(f64::from_bits(bits))
}

fn two(x: &[u8], y: &[u8]) -> Option<Two> {
    Some((float(x)?, float(y)?))
}

fn coordinates(fields: &[&[u8]]) -> Option<Record> {
    match fields {
        [_, count] => Some(Record::Coordinates(whole(count)?)),
        _ => None,
    }
}

fn body(fields: &[&[u8]]) -> Option<Record> {
    let (parent, hang) = match fields {
        [_, b"G", parent] => (parent, Hang::Ground),
        [_, b"R", parent, coord, x, y] => {
            let (coord, pivot) = (whole(coord)?, two(x, y)?);
            (parent, Hang::Revolute { coord, pivot })
        }
        [_, b"P", parent, coord, x, y, ax, ay] => {
            let (coord, origin, axis) = (whole(coord)?, two(x, y)?, two(ax, ay)?);
            let hang = Hang::Prismatic {
                coord,
                origin,
                axis,
            };
            (parent, hang)
        }
        _ => return None,
    };
    let parent = whole(parent)?;
    Some(Record::Body(BodyLine { parent, hang }))
}

fn role(field: &[u8]) -> Option<RoleLetter> {
    match field {
        b"S" => Some(RoleLetter::Solid),
        b"C" => Some(RoleLetter::Cut),
        b"L" => Some(RoleLetter::Lining),
        _ => None,
    }
}

fn sweep(fields: &[&[u8]]) -> Option<SweepFields> {
    match fields {
        [b"E", width, across] => Some(SweepFields::Extruded {
            width: float(width)?,
            across: float(across)?,
        }),
        [b"R", axis] => Some(SweepFields::Revolved { axis: float(axis)? }),
        [b"M", width] => Some(SweepFields::Milled {
            width: float(width)?,
        }),
        [b"O", width] => Some(SweepFields::Oval {
            width: float(width)?,
        }),
        _ => None,
    }
}

fn part(fields: &[&[u8]]) -> Option<Record> {
    match fields {
        [_, on, letter, swept @ ..] => Some(Record::Part(PartHead {
            body: whole(on)?,
            role: role(letter)?,
            sweep: sweep(swept)?,
        })),
        _ => None,
    }
}

fn line_segment(fields: &[&[u8]]) -> Option<Record> {
    match fields {
        [_, ax, ay, bx, by] => Some(Record::Segment(SegLine::Line {
            a: two(ax, ay)?,
            b: two(bx, by)?,
        })),
        _ => None,
    }
}

fn arc_segment(fields: &[&[u8]]) -> Option<Record> {
    match fields {
        [_, cx, cy, r, fx, fy, tx, ty] => Some(Record::Segment(SegLine::Arc {
            c: two(cx, cy)?,
            r: float(r)?,
            from: two(fx, fy)?,
            to: two(tx, ty)?,
        })),
        _ => None,
    }
}

fn pair(fields: &[&[u8]]) -> Option<Record> {
    match fields {
        [_, b"F"] => Some(Record::Pair { centered: false }),
        [_, b"C"] => Some(Record::Pair { centered: true }),
        _ => None,
    }
}

fn range(fields: &[&[u8]]) -> Option<Record> {
    let (side, part, first, past_last) = match fields {
        [_, b"A", part, first, past_last] => (SideLetter::A, part, first, past_last),
        [_, b"B", part, first, past_last] => (SideLetter::B, part, first, past_last),
        _ => return None,
    };
    let range = RangeLine {
        part: whole(part)?,
        first: whole(first)?,
        past_last: whole(past_last)?,
    };
    Some(Record::Range(side, range))
}

fn margin(fields: &[&[u8]]) -> Option<Record> {
    match fields {
        [_, margin] => Some(Record::Margin(float(margin)?)),
        _ => None,
    }
}

fn entry(fields: &[&[u8]]) -> Option<Record> {
    match fields {
        [_, value, sine, cosine] => Some(Record::Entry(Entry {
            value: float(value)?,
            sine: float(sine)?,
            cosine: float(cosine)?,
        })),
        _ => None,
    }
}

// ---- The order of the records ----

/// The sheet so far, and what the order of the lines allows next.
#[derive(Default)]
struct Reading {
    sheet: Sheet,
    /// The latest kind that stands in the text so far.
    latest: u8,
    coordinates_seen: bool,
    margin_seen: bool,
}

/// The place of a record's kind in the order of a text.
fn kind(record: &Record) -> u8 {
    match record {
        Record::Coordinates(_) => 0,
        Record::Body(_) => 1,
        Record::Part(_) | Record::Segment(_) => 2,
        Record::Pair { .. } | Record::Range(..) => 3,
        Record::Margin(_) => 4,
        Record::Entry(_) => 5,
    }
}

impl Reading {
    /// Takes the next record; false where it is out of order.
    fn take(&mut self, record: Record) -> bool {
        let kind = kind(&record);
        if kind < self.latest {
            return false;
        }
        self.latest = kind;
        match record {
            Record::Coordinates(count) => self.take_coordinates(count),
            Record::Body(body) => {
                self.sheet.bodies.push(body);
                true
            }
            Record::Part(head) => self.take_part(head),
            Record::Segment(segment) => self.take_segment(segment),
            Record::Pair { centered } => self.take_pair(centered),
            Record::Range(side, range) => self.take_range(side, range),
            Record::Margin(margin) => self.take_margin(margin),
            Record::Entry(entry) => self.take_entry(entry),
        }
    }

    fn take_coordinates(&mut self, count: u16) -> bool {
        let first = !self.coordinates_seen;
        self.coordinates_seen = true;
        self.sheet.coords = count;
        first
    }

    fn take_part(&mut self, head: PartHead) -> bool {
        let outline = Vec::new();
        self.sheet.parts.push(PartLines { head, outline });
        true
    }

    fn take_segment(&mut self, segment: SegLine) -> bool {
        match self.sheet.parts.last_mut() {
            Some(part) => {
                part.outline.push(segment);
                true
            }
            None => false,
        }
    }

    fn take_pair(&mut self, centered: bool) -> bool {
        self.sheet.pairs.push(PairLines {
            centered,
            a: Vec::new(),
            b: Vec::new(),
        });
        true
    }

    fn take_range(&mut self, side: SideLetter, range: RangeLine) -> bool {
        let Some(pair) = self.sheet.pairs.last_mut() else {
            return false;
        };
        match side {
            SideLetter::A if !pair.b.is_empty() => return false,
            SideLetter::A => pair.a.push(range),
            SideLetter::B => pair.b.push(range),
        }
        true
    }

    fn take_margin(&mut self, margin: f64) -> bool {
        let first = !self.margin_seen;
        self.margin_seen = true;
        self.sheet.margin = margin;
        first
    }

    fn take_entry(&mut self, entry: Entry) -> bool {
        self.sheet.entries.push(entry);
        self.margin_seen
    }
}
