//! What can be asked, and what is answered: in lines and in the soak alike.

use crate::rules::{Kind, Measure, Refusal, View};

/// How a blob is read.
#[derive(Clone, Copy, Debug, PartialEq, Eq)]
pub enum Mode {
    Plain,
    Strict,
}

/// The two formats of files of vectors.
#[derive(Clone, Copy, Debug, PartialEq, Eq)]
pub enum Vecs {
    Fvecs,
    Bvecs,
}

impl Vecs {
    /// How many bytes an element has.
    pub fn width(self) -> usize {
        match self {
            Self::Fvecs => 4,
            Self::Bvecs => 1,
        }
    }
}

#[derive(Clone, Debug, PartialEq, Eq)]
pub enum Request {
    Read {
        mode: Mode,
        blob: Vec<u8>,
    },
    Write {
        kind: Kind,
        dims: usize,
        body: Vec<u8>,
    },
    Convert {
        target: Kind,
        blob: Vec<u8>,
    },
    Distance {
        measure: Measure,
        blobs: [Vec<u8>; 2],
    },
    /// The probe, and two candidates.
    Nearer {
        measure: Measure,
        blobs: [Vec<u8>; 3],
    },
    /// The vector at a place of a file.
    Find {
        vecs: Vecs,
        place: usize,
        file: Vec<u8>,
    },
    /// The blob, appended to the fvecs file that fills the buffer so far.
    Append {
        fill: usize,
        buffer: Vec<u8>,
        blob: Vec<u8>,
    },
}

impl Request {
    /// The words of all requests, each the first field of its lines.
    pub const WORDS: [&'static str; 12] = [
        "read", "strict", "write", "conv", "cos", "l2", "dot", "jac", "near", "fvecs", "bvecs",
        "append",
    ];

    pub fn word(&self) -> &'static str {
        match self {
            Self::Read { mode, .. } => match mode {
                Mode::Plain => "read",
                Mode::Strict => "strict",
            },
            Self::Write { .. } => "write",
            Self::Convert { .. } => "conv",
            Self::Distance { measure, .. } => measure.word(),
            Self::Nearer { .. } => "near",
            Self::Find { vecs, .. } => match vecs {
                Vecs::Fvecs => "fvecs",
                Vecs::Bvecs => "bvecs",
            },
            Self::Append { .. } => "append",
        }
    }

    /// Whether the caller lends an output buffer that the request does not name.
    pub fn has_output(&self) -> bool {
        match self {
            Self::Write { .. } | Self::Convert { .. } => true,
            Self::Find { vecs, .. } => *vecs == Vecs::Bvecs,
            _ => false,
        }
    }

    /// The dims, the place or the fill that is given.
    pub fn number(&self) -> Option<usize> {
        match self {
            Self::Write { dims: number, .. }
            | Self::Find { place: number, .. }
            | Self::Append { fill: number, .. } => Some(*number),
            _ => None,
        }
    }

    pub fn number_mut(&mut self) -> Option<&mut usize> {
        match self {
            Self::Write { dims: number, .. }
            | Self::Find { place: number, .. }
            | Self::Append { fill: number, .. } => Some(number),
            _ => None,
        }
    }

    /// The bytes that are given, in the order of a line.
    pub fn parts(&self) -> Vec<&Vec<u8>> {
        match self {
            Self::Read { blob: part, .. }
            | Self::Write { body: part, .. }
            | Self::Convert { blob: part, .. }
            | Self::Find { file: part, .. } => vec![part],
            Self::Distance { blobs, .. } => blobs.iter().collect(),
            Self::Nearer { blobs, .. } => blobs.iter().collect(),
            Self::Append { buffer, blob, .. } => vec![buffer, blob],
        }
    }

    pub fn parts_mut(&mut self) -> Vec<&mut Vec<u8>> {
        match self {
            Self::Read { blob: part, .. }
            | Self::Write { body: part, .. }
            | Self::Convert { blob: part, .. }
            | Self::Find { file: part, .. } => vec![part],
            Self::Distance { blobs, .. } => blobs.iter_mut().collect(),
            Self::Nearer { blobs, .. } => blobs.iter_mut().collect(),
            Self::Append { buffer, blob, .. } => vec![buffer, blob],
        }
    }
}

/// An answer, or a refusal.
pub type Reply = Result<Answer, Refused>;

#[derive(Clone, Debug, PartialEq, Eq)]
pub enum Answer {
    Read(View),
    Written(Vec<u8>),
    Converted(View),
    Measured(Measured),
    Nearer(Nearer),
    /// Nothing at the end of a file.
    Found(Option<Shown>),
    Appended {
        fill: usize,
        buffer: Vec<u8>,
    },
    /// No answer at all, with the words of the panic.
    Panic(String),
}

/// A distance, as a pattern, and the counts of readings of both blobs.
#[derive(Clone, Debug, PartialEq, Eq)]
pub struct Measured {
    pub bits: u64,
    pub readings: [usize; 2],
}

/// The nearer of two candidates, 1 or 2, its distance to the probe and its own count of readings.
#[derive(Clone, Debug, PartialEq, Eq)]
pub struct Nearer {
    pub which: u8,
    pub bits: u64,
    pub readings: usize,
}

/// A vector that a file shows: its Float32Dense body, and the place after it.
#[derive(Clone, Debug, PartialEq, Eq)]
pub struct Shown {
    pub dims: usize,
    pub body: Vec<u8>,
    pub next: usize,
}

/// A refusal and, where there are several blobs, the one that it names: `p`, `a`, `b`, or `-` for none.
#[derive(Clone, Debug, PartialEq, Eq)]
pub struct Refused {
    pub refusal: Refusal,
    pub blob: Option<char>,
}

/// The refusal of a request with one blob.
impl From<Refusal> for Refused {
    fn from(refusal: Refusal) -> Self {
        let blob = None;
        Self { refusal, blob }
    }
}
