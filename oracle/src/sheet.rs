//! A sheet as it was read: records in the text's own words, nothing looked
//! up and nothing normalized.

/// Two floats of a point or of a direction.
pub type Two = (f64, f64);

/// How a body hangs from its parent.
#[derive(Clone, Copy)]
pub enum Hang {
    Ground,
    Revolute { coord: u16, pivot: Two },
    Prismatic { coord: u16, origin: Two, axis: Two },
}

/// A body above the ground.
#[derive(Clone, Copy)]
pub struct BodyLine {
    pub parent: u16,
    pub hang: Hang,
}

/// What a part is to its body.
#[derive(Clone, Copy)]
pub enum RoleLetter {
    Solid,
    Cut,
    Lining,
}

/// How a part's outline becomes a solid.
#[derive(Clone, Copy)]
pub enum SweepFields {
    Extruded { width: f64, across: f64 },
    Revolved { axis: f64 },
    Milled { width: f64 },
    Oval { width: f64 },
}

/// One segment of an outline.
#[derive(Clone, Copy)]
pub enum SegLine {
    Line { a: Two, b: Two },
    Arc { c: Two, r: f64, from: Two, to: Two },
}

/// A part's own line.
#[derive(Clone, Copy)]
pub struct PartHead {
    pub body: u16,
    pub role: RoleLetter,
    pub sweep: SweepFields,
}

/// A part with its segments.
pub struct PartLines {
    pub head: PartHead,
    pub outline: Vec<SegLine>,
}

/// Which side of a pair.
#[derive(Clone, Copy, PartialEq)]
pub enum SideLetter {
    A,
    B,
}

/// A range of one part's silhouette.
#[derive(Clone, Copy)]
pub struct RangeLine {
    pub part: u16,
    pub first: u16,
    pub past_last: u16,
}

/// A pair with the ranges of its two sides.
pub struct PairLines {
    /// Whether the pair is a centre bearing.
    pub centered: bool,
    pub a: Vec<RangeLine>,
    pub b: Vec<RangeLine>,
}

/// What is lent for one coordinate.
#[derive(Clone, Copy)]
pub struct Entry {
    pub value: f64,
    pub sine: f64,
    pub cosine: f64,
}

/// A whole text.
#[derive(Default)]
pub struct Sheet {
    pub coords: u16,
    pub bodies: Vec<BodyLine>,
    pub parts: Vec<PartLines>,
    pub pairs: Vec<PairLines>,
    pub margin: f64,
    pub entries: Vec<Entry>,
}

/// A refusal: document 01's number, and its place, 0 where none is named.
#[derive(Clone, Copy, Debug, PartialEq)]
pub struct Refusal {
    pub number: u32,
    pub place: usize,
}

/// A refusal that names no place.
pub fn placeless(number: u32) -> Refusal {
    Refusal { number, place: 0 }
}
