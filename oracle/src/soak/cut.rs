//! A case that differs is cut down: of the smaller cases next to it the first that differs too is taken, again
//! and again, until none does.

use super::edits::{self, End};
use super::{Case, Length, Room, Soak};
use crate::request::{Mode, Request, Vecs};
use crate::rules::{Kind, Measure};

/// How many bytes may be looked at in all, where each case counts as a thousand more than it has.
const BUDGET: usize = 1_000_000_000;

impl Soak<'_> {
    /// The smallest case that is found to differ, from one that does.
    pub fn cut_down(&mut self, mut case: Case) -> Case {
        let mut budget = BUDGET;
        while let Some(smaller) = self.smaller(&case, &mut budget) {
            case = smaller;
        }
        case
    }

    /// The first smaller case next to one that differs; none once the budget is spent.
    fn smaller(&mut self, case: &Case, budget: &mut usize) -> Option<Case> {
        let size = size(case);
        for other in neighbours(case) {
            *budget = budget.checked_sub(1_000 + bytes(&other.request))?;
            if self::size(&other) < size && !self.compare(&other).agrees() {
                return Some(other);
            }
        }
        None
    }
}

/// What is made smaller: the word by its place, the bytes, the number, the kind or distance by its place, what
/// is lent past the need or short of it, the sum of all bytes. Every step lowers it, so there is a last one.
fn size(case: &Case) -> [usize; 6] {
    let Case { request, room } = case;
    let mut words = Request::WORDS.iter();
    let word = words.position(|&word| word == request.word());
    let choice = match request {
        Request::Write { kind, .. } | Request::Convert { target: kind, .. } => *kind as usize,
        Request::Nearer { measure, .. } => *measure as usize,
        _ => 0,
    };
    let lent = [room.scratch, room.out].map(|length| match length {
        Length::Exact => 0,
        Length::OneShort => 1,
        Length::Empty => 2,
        Length::LongerBy(more) => 2 + more,
    });
    let each = request.parts().into_iter().flatten();
    [
        word.expect("every word is listed"),
        bytes(request),
        request.number().unwrap_or_default(),
        choice,
        lent.into_iter().sum(),
        each.map(|&byte| usize::from(byte)).sum(),
    ]
}

fn bytes(request: &Request) -> usize {
    request.parts().into_iter().map(Vec::len).sum()
}

/// Cases that may be smaller, the most drastic first.
fn neighbours(case: &Case) -> impl Iterator<Item = Case> + '_ {
    let Case { request, room } = case;
    let rooms = less_lent(*room).into_iter();
    let lent_less = rooms.map(|room| (request.clone(), room));
    let requests = asking_less(request)
        .into_iter()
        .chain(other_choices(request))
        .chain(lower_numbers(request))
        .chain(edits::all(request));
    lent_less
        .chain(requests.map(|request| (request, *room)))
        .map(|(request, room)| Case { request, room })
}

fn less_lent(room: Room) -> Vec<Room> {
    let less = |length| match length {
        Length::LongerBy(more) => vec![
            Length::Exact,
            Length::LongerBy(1),
            Length::LongerBy(more / 2),
            Length::LongerBy(more - 1),
        ],
        _ => vec![Length::Exact, Length::OneShort],
    };
    let scratch = less(room.scratch).into_iter();
    let out = less(room.out).into_iter();
    scratch
        .map(|scratch| Room { scratch, ..room })
        .chain(out.map(|out| Room { out, ..room }))
        .collect()
}

/// Requests that ask less of the same blobs.
fn asking_less(request: &Request) -> Vec<Request> {
    let read = |blob: &Vec<u8>| Request::Read {
        mode: Mode::Plain,
        blob: blob.clone(),
    };
    match request {
        Request::Read { blob, .. }
        | Request::Convert { blob, .. }
        | Request::Append { blob, .. } => vec![read(blob)],
        Request::Distance { blobs, .. } => blobs.iter().map(read).collect(),
        Request::Nearer { measure, blobs } => {
            let [probe, candidates @ ..] = blobs;
            let pair = |other: &Vec<u8>| Request::Distance {
                measure: *measure,
                blobs: [probe.clone(), other.clone()],
            };
            let pairs = candidates.iter().map(pair);
            blobs.iter().map(read).chain(pairs).collect()
        }
        Request::Write { .. } | Request::Find { .. } => vec![],
    }
}

/// The same request of every kind or distance, or of the first format.
fn other_choices(request: &Request) -> Vec<Request> {
    let mut others = vec![];
    for kind in Kind::ALL {
        let mut other = request.clone();
        match &mut other {
            Request::Write { dims, body, .. } => others.extend(writing(kind, *dims, body)),
            Request::Convert { target, .. } => {
                *target = kind;
                others.push(other);
            }
            _ => {}
        }
    }
    for another in Measure::ALL {
        let mut other = request.clone();
        if let Request::Distance { measure, .. } | Request::Nearer { measure, .. } = &mut other {
            *measure = another;
            others.push(other);
        }
    }
    let mut other = request.clone();
    if let Request::Find { vecs, .. } = &mut other {
        *vecs = Vecs::Fvecs;
        others.push(other);
    }
    others
}

/// The body as a kind, and bodies of zeros, of the same dims and of none.
fn writing(kind: Kind, dims: usize, body: &[u8]) -> Vec<Request> {
    let zeros = |dims| edits::zeros(kind, dims).map(|body| (dims, body));
    let zeros = [0, dims].into_iter().filter_map(zeros);
    zeros
        .chain([(dims, body.to_vec())])
        .map(|(dims, body)| Request::Write { kind, dims, body })
        .collect()
}

/// The same request with a lower number: with as many bytes as go with it, or with all.
fn lower_numbers(request: &Request) -> Vec<Request> {
    let Some(number) = request.number() else {
        return vec![];
    };
    let lowered = |lower: usize| {
        let shorter = bytes_for(request, number, lower);
        let shorter = shorter.into_iter().map(Some).chain([None]);
        shorter.map(move |bytes| with(request, lower, bytes))
    };
    edits::lower(number).flat_map(lowered).collect()
}

/// The first part, cut to what goes with a lower number: a body that fits fewer dims, or what is left of a file
/// or buffer where as many bytes are dropped before the place or the fill.
fn bytes_for(request: &Request, number: usize, lower: usize) -> Vec<&[u8]> {
    match request {
        Request::Write { kind, body, .. } => {
            let ends = End::BOTH.into_iter();
            ends.filter_map(|end| end.fitting(*kind, lower, body))
                .collect()
        }
        Request::Find { file: bytes, .. } | Request::Append { buffer: bytes, .. } => {
            bytes.get(number - lower..).into_iter().collect()
        }
        _ => vec![],
    }
}

/// The request with another number and, if there are any, these bytes as its first part.
fn with(request: &Request, number: usize, first: Option<&[u8]>) -> Request {
    let mut other = request.clone();
    if let Some(old) = other.number_mut() {
        *old = number;
    }
    if let (Some(bytes), Some(part)) = (first, other.parts_mut().into_iter().next()) {
        *part = bytes.to_vec();
    }
    other
}
