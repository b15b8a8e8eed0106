//! Ours and the Rust in one process: generated requests are put to both, with lent buffers of every length
//! that matters, and every answer, every lent byte and every refusal is compared.

mod cut;
mod edits;
mod report;

use crate::generate::random::Random;
use crate::oracle::Oracle;
use crate::original;
use crate::request::{Answer, Reply, Request, Vecs};
use crate::rules::{Kind, Refusal};
pub use report::Tally;

/// A request, and how the buffers for it are lent.
#[derive(Clone, Debug, PartialEq, Eq)]
pub struct Case {
    pub request: Request,
    pub room: Room,
}

/// The lengths of the lent buffers, and what each of their bytes is before the call.
#[derive(Clone, Copy, Debug, PartialEq, Eq)]
pub struct Room {
    pub byte: u8,
    pub scratch: Length,
    pub out: Length,
}

/// The length of a lent buffer, beside what is needed.
#[derive(Clone, Copy, Debug, PartialEq, Eq)]
pub enum Length {
    Exact,
    OneShort,
    Empty,
    LongerBy(usize),
}

impl Length {
    fn of(self, needed: usize) -> usize {
        match self {
            Self::Exact => needed,
            Self::OneShort => needed.saturating_sub(1),
            Self::Empty => 0,
            Self::LongerBy(more) => needed + more,
        }
    }
}

/// The buffers that a call is lent; `append` is lent its own buffer as `out`.
#[derive(Clone, Debug, Default, PartialEq, Eq)]
pub struct Lent {
    pub scratch: Vec<u8>,
    pub out: Vec<u8>,
}

/// What a side replied, and the lent buffers after that.
#[derive(Debug, PartialEq, Eq)]
pub struct Outcome {
    pub reply: Reply,
    pub lent: Lent,
}

/// Both sides of a case, and where the Rust parted from the rules.
pub struct Compared {
    oracle: Outcome,
    ours: Outcome,
    findings: Vec<String>,
}

impl Compared {
    fn agrees(&self) -> bool {
        self.oracle == self.ours && self.findings.is_empty()
    }
}

/// A side: it replies, and writes to what it is lent.
type Side<'a> = dyn FnMut(&Request, &mut Lent) -> Reply + 'a;

/// The oracle beside our side.
pub struct Soak<'a> {
    oracle: Oracle,
    ours: Box<Side<'a>>,
}

impl<'a> Soak<'a> {
    pub fn new(ours: impl FnMut(&Request, &mut Lent) -> Reply + 'a) -> Self {
        Self {
            oracle: Oracle::default(),
            ours: Box::new(ours),
        }
    }

    /// Puts so many generated cases to both sides; the first that differs, if one does.
    pub fn run(&mut self, random: &mut Random, count: usize, tally: &mut Tally) -> Option<Case> {
        for _ in 0..count {
            let case = random.case();
            let compared = self.compare(&case);
            if !compared.agrees() {
                return Some(case);
            }
            tally.add(&case, &compared.oracle.reply);
        }
        None
    }

    /// Puts a case to both sides. If ours panics, that is its answer.
    pub fn compare(&mut self, case: &Case) -> Compared {
        let Case { request, room } = case;
        let (reply, left) = answer(&mut self.oracle, request);
        let mut lent = room.lend(request, &left);
        let oracle = settled(reply, &left, lent.clone());
        let reply = original::caught(|| (self.ours)(request, &mut lent))
            .unwrap_or_else(|words| Ok(Answer::Panic(words)));
        let ours = Outcome { reply, lent };
        let findings = self.oracle.take_findings();
        Compared {
            oracle,
            ours,
            findings,
        }
    }
}

impl Room {
    /// The buffers for a request that leaves these bytes in them.
    fn lend(self, request: &Request, left: &Lent) -> Lent {
        match request {
            Request::Append { buffer, .. } => Lent {
                scratch: vec![],
                out: buffer.clone(),
            },
            _ if request.has_output() => Lent {
                scratch: vec![self.byte; self.scratch.of(left.scratch.len())],
                out: vec![self.byte; self.out.of(left.out.len())],
            },
            _ => Lent::default(),
        }
    }
}

/// The oracle's reply where there is room for any result, and what that leaves at the start of the lent
/// buffers: as many bytes are needed.
fn answer(oracle: &mut Oracle, request: &Request) -> (Reply, Lent) {
    let reply = oracle.answer(request);
    let mut left = Lent::default();
    match (request, &reply) {
        (_, Ok(Answer::Written(blob))) => left.out = blob.clone(),
        (Request::Convert { target, blob }, Ok(Answer::Converted(view))) => {
            left.out = view.body.clone();
            left.scratch = dense_on_the_way(oracle, blob, *target);
        }
        (Request::Find { vecs, .. }, Ok(Answer::Found(Some(shown)))) if *vecs == Vecs::Bvecs => {
            left.out = shown.body.clone();
        }
        (_, Ok(Answer::Appended { buffer, .. })) => left.out = buffer.clone(),
        _ => {}
    }
    (reply, left)
}

/// The dense body that a conversion leaves in scratch: from sparse to 1-bit or Float8, else none.
fn dense_on_the_way(oracle: &mut Oracle, blob: &[u8], target: Kind) -> Vec<u8> {
    let sparse = Kind::of(blob) == Some(Kind::Float32Sparse);
    if !sparse || !matches!(target, Kind::Float1Bit | Kind::Float8) {
        return vec![];
    }
    let dense = oracle.convert(blob, Kind::Float32Dense);
    dense.map_or(vec![], |view| view.body)
}

/// A reply in these buffers: 17 if scratch is too short, then 15 if the output is, else the bytes are left.
fn settled(reply: Reply, left: &Lent, mut lent: Lent) -> Outcome {
    let too_short = |number, left: &[u8]| Err(Refusal::carrying(number, left.len()).into());
    let reply = if lent.scratch.len() < left.scratch.len() {
        too_short(17, &left.scratch)
    } else if lent.out.len() < left.out.len() {
        too_short(15, &left.out)
    } else {
        lent.scratch[..left.scratch.len()].copy_from_slice(&left.scratch);
        lent.out[..left.out.len()].copy_from_slice(&left.out);
        reply
    };
    Outcome { reply, lent }
}

impl Random {
    fn case(&mut self) -> Case {
        let request = self.request();
        let room = Room {
            byte: self.byte(),
            scratch: self.length(matches!(request, Request::Convert { .. })),
            out: self.length(request.has_output()),
        };
        Case { request, room }
    }

    /// As long as needed, one shorter, none at all or longer, where the buffer is used.
    fn length(&mut self, is_used: bool) -> Length {
        match self.below(16) {
            0 | 1 if is_used => Length::OneShort,
            2 if is_used => Length::Empty,
            3..=8 if is_used => Length::LongerBy(self.between(1..=40)),
            _ => Length::Exact,
        }
    }
}

#[cfg(test)]
mod tests;
