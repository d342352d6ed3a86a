//! A sheet as the generator holds it, and its text.

use std::fmt::Write;

/// Two floats of a point or of a direction.
pub type Two = (f64, f64);

#[derive(Clone)]
pub enum Joint {
    Ground,
    Hinge { coord: usize, pivot: Two },
    Slide { coord: usize, origin: Two, axis: Two },
}

#[derive(Clone)]
pub struct Body {
    pub parent: usize,
    pub joint: Joint,
}

#[derive(Clone)]
pub enum Sweep {
    Extruded { width: f64, across: f64 },
    Revolved { axis: f64 },
    Milled { width: f64 },
    Oval { width: f64 },
}

#[derive(Clone)]
pub enum Seg {
    Line { a: Two, b: Two },
    Arc { c: Two, r: f64, from: Two, to: Two },
}

#[derive(Clone)]
pub struct Part {
    pub body: usize,
    /// S, C or L.
    pub role: char,
    pub sweep: Sweep,
    pub outline: Vec<Seg>,
}

/// Part, first and past-last segment.
pub type Range = (usize, usize, usize);

#[derive(Clone, Default)]
pub struct Pair {
    pub centered: bool,
    pub a: Vec<Range>,
    pub b: Vec<Range>,
}

#[derive(Clone, Default)]
pub struct Sheet {
    pub coords: usize,
    /// The bodies above the ground.
    pub bodies: Vec<Body>,
    pub parts: Vec<Part>,
    pub pairs: Vec<Pair>,
    pub margin: f64,
    /// Value, sine and cosine.
    pub entries: Vec<(f64, f64, f64)>,
}

impl Part {
    /// How many segments the part's silhouette has.
    pub fn silhouette_len(&self) -> usize {
        match self.sweep {
            Sweep::Revolved { .. } => 2 * self.outline.len().saturating_sub(1),
            _ => self.outline.len(),
        }
    }
}

/// An extruded part in the section.
pub fn solid(body: usize, outline: Vec<Seg>) -> Part {
    Part {
        body,
        role: 'S',
        sweep: Sweep::Extruded {
            width: 0.02,
            across: 0.0,
        },
        outline,
    }
}

/// An entry whose sine and cosine are those of its value.
pub fn honest(value: f64) -> (f64, f64, f64) {
    (value, crate::sine(value), crate::cosine(value))
}

impl Sheet {
    /// Adds a body with a hinge, on a coordinate of its own.
    pub fn hinge(&mut self, parent: usize, pivot: Two, angle: f64) -> usize {
        let coord = self.coordinate(angle);
        self.body(parent, Joint::Hinge { coord, pivot })
    }

    /// Adds a body with a slide, on a coordinate of its own.
    pub fn slide(&mut self, parent: usize, origin: Two, axis: Two, travel: f64) -> usize {
        let coord = self.coordinate(travel);
        let joint = Joint::Slide {
            coord,
            origin,
            axis,
        };
        self.body(parent, joint)
    }

    /// Adds a coordinate with an honest entry.
    pub fn coordinate(&mut self, value: f64) -> usize {
        self.coords += 1;
        self.entries.push(honest(value));
        self.coords - 1
    }

    /// Adds a body; gives its number.
    pub fn body(&mut self, parent: usize, joint: Joint) -> usize {
        self.bodies.push(Body { parent, joint });
        self.bodies.len()
    }

    /// Adds a part; gives its number.
    pub fn part(&mut self, part: Part) -> usize {
        self.parts.push(part);
        self.parts.len() - 1
    }

    /// Adds a pair.
    pub fn pair(&mut self, centered: bool, a: &[Range], b: &[Range]) {
        self.pairs.push(Pair {
            centered,
            a: a.to_vec(),
            b: b.to_vec(),
        });
    }

    /// The text of the sheet.
    pub fn text(&self) -> Vec<u8> {
        let mut out = String::new();
        put(&mut out, &format!("M,{}", self.coords), &[]);
        for body in &self.bodies {
            put_body(&mut out, body);
        }
        for part in &self.parts {
            put_part(&mut out, part);
        }
        for pair in &self.pairs {
            put_pair(&mut out, pair);
        }
        put(&mut out, "G", &[self.margin]);
        for &(value, sine, cosine) in &self.entries {
            put(&mut out, "T", &[value, sine, cosine]);
        }
        out.into_bytes()
    }
}

/// One line: its words, then floats.
fn put(out: &mut String, words: &str, floats: &[f64]) {
    out.push_str(words);
    for x in floats {
        write!(out, ",{:016x}", x.to_bits()).expect("a string takes any text");
    }
    out.push('\n');
}

fn put_body(out: &mut String, body: &Body) {
    let parent = body.parent;
    match body.joint {
        Joint::Ground => put(out, &format!("J,G,{parent}"), &[]),
        Joint::Hinge { coord, pivot } => {
            put(out, &format!("J,R,{parent},{coord}"), &[pivot.0, pivot.1]);
        }
        Joint::Slide {
            coord,
            origin,
            axis,
        } => put(
            out,
            &format!("J,P,{parent},{coord}"),
            &[origin.0, origin.1, axis.0, axis.1],
        ),
    }
}

fn put_part(out: &mut String, part: &Part) {
    let words = format!("P,{},{}", part.body, part.role);
    match part.sweep {
        Sweep::Extruded { width, across } => put(out, &format!("{words},E"), &[width, across]),
        Sweep::Revolved { axis } => put(out, &format!("{words},R"), &[axis]),
        Sweep::Milled { width } => put(out, &format!("{words},M"), &[width]),
        Sweep::Oval { width } => put(out, &format!("{words},O"), &[width]),
    }
    for seg in &part.outline {
        match *seg {
            Seg::Line { a, b } => put(out, "L", &[a.0, a.1, b.0, b.1]),
            Seg::Arc { c, r, from, to } => {
                put(out, "A", &[c.0, c.1, r, from.0, from.1, to.0, to.1]);
            }
        }
    }
}

fn put_pair(out: &mut String, pair: &Pair) {
    put(out, if pair.centered { "K,C" } else { "K,F" }, &[]);
    for (side, ranges) in [("A", &pair.a), ("B", &pair.b)] {
        for (part, first, past_last) in ranges {
            put(out, &format!("S,{side},{part},{first},{past_last}"), &[]);
        }
    }
}
