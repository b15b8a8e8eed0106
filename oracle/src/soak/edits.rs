//! The bytes of a request made fewer or lower: whole blobs, then windows of them.

use std::ops::Range;

use crate::differences::MOST_LENGTH;
use crate::request::Request;
use crate::rules::{self, Kind};

/// The request with every edit, the most drastic first.
pub fn all(request: &Request) -> impl Iterator<Item = Request> + '_ {
    let rewritten = changed(request, &|blob| rewritten(blob, usize::MAX, End::First));
    rewritten
        .into_iter()
        .chain(fewer_dims(request))
        .chain(blobs_of_zeros(request))
        .chain(in_windows(request, &Change::REMOVALS))
        .chain(in_windows(request, &Change::LOWERINGS))
}

/// Lower numbers, the least first: up to 8, half of it, and so on in ever smaller steps down.
pub fn lower(number: usize) -> impl Iterator<Item = usize> {
    let steps = (1..usize::BITS).map(move |halvings| number >> halvings);
    let stepped = steps
        .filter(|&step| step > 0)
        .map(move |step| number - step);
    (0..number.min(9)).chain(stepped)
}

/// Which bytes of a body are kept.
#[derive(Clone, Copy)]
pub enum End {
    First,
    Last,
}

impl End {
    pub const BOTH: [Self; 2] = [Self::First, Self::Last];

    /// As many bytes of a body as fit a kind and dims.
    pub fn fitting(self, kind: Kind, dims: usize, body: &[u8]) -> Option<&[u8]> {
        let mut lengths = (0..=body.len()).rev();
        let length = lengths.find(|&length| kind.fits(dims, length))?;
        Some(match self {
            Self::First => &body[..length],
            Self::Last => &body[body.len() - length..],
        })
    }
}

/// The request with blobs of fewer dims.
fn fewer_dims(request: &Request) -> impl Iterator<Item = Request> + '_ {
    let dims = |blob: &Vec<u8>| rules::read(blob).map_or(0, |view| view.dims);
    let most = request.parts().into_iter().map(dims).max();
    let ways = lower(most.unwrap_or_default()).flat_map(|dims| End::BOTH.map(|end| (dims, end)));
    ways.flat_map(|(dims, end)| changed(request, &|blob| rewritten(blob, dims, end)))
}

/// The request with blobs of zeros, of every kind and the same dims.
fn blobs_of_zeros(request: &Request) -> impl Iterator<Item = Request> + '_ {
    let blob = |kind: Kind, blob: &[u8]| {
        let dims = rules::read(blob).ok()?.dims;
        Some(rules::blob(kind, dims, &zeros(kind, dims)?))
    };
    let kinds = Kind::ALL.into_iter();
    kinds.flat_map(move |kind| changed(request, &|old| blob(kind, old)))
}

/// The shortest body of zeros that fits; a sparse one has no entry, and there is none past the limit.
pub fn zeros(kind: Kind, dims: usize) -> Option<Vec<u8>> {
    let mut lengths = 0..=MOST_LENGTH;
    let length = lengths.find(|&length| kind.fits(dims, length))?;
    Some(vec![0; length])
}

/// An accepted blob as the writer has it, with no byte to spare, of at most so many dims.
fn rewritten(blob: &[u8], most: usize, end: End) -> Option<Vec<u8>> {
    let view = rules::read(blob).ok()?;
    let dims = view.dims.min(most);
    let body = end.fitting(view.kind, dims, &view.body)?;
    Some(rules::blob(view.kind, dims, body))
}

/// The request with all of its parts changed, then with each of several alone; not where one cannot be.
fn changed(request: &Request, change: &dyn Fn(&[u8]) -> Option<Vec<u8>>) -> Vec<Request> {
    let count = request.parts().len();
    let each = (0..count).filter(|_| count > 1);
    let reaches = std::iter::once(0..count).chain(each.map(|at| at..at + 1));
    let reached = |reach: Range<usize>| {
        let mut other = request.clone();
        for part in &mut other.parts_mut()[reach] {
            **part = change(part)?;
        }
        Some(other)
    };
    reaches.filter_map(reached).collect()
}

/// A change of the bytes in a window.
#[derive(Clone, Copy)]
enum Change {
    Remove,
    /// Of the values of a sparse body, together with their indices.
    RemoveEntries,
    Clear,
    Halve,
    Decrease,
}

impl Change {
    const REMOVALS: [Self; 2] = [Self::Remove, Self::RemoveEntries];
    const LOWERINGS: [Self; 3] = [Self::Clear, Self::Halve, Self::Decrease];

    /// The changed bytes; nothing where the window reaches past them.
    fn of(self, part: &[u8], window: &Range<usize>) -> Option<Vec<u8>> {
        let mut part = part.to_vec();
        match self {
            Self::Remove => {
                part.get(window.clone())?;
                part.drain(window.clone());
            }
            Self::RemoveEntries => {
                let trailer = if part.len() % 2 == 1 { 5 } else { 0 };
                let half = part.len().checked_sub(trailer)? / 2;
                part[..half].get(window.clone())?;
                part.drain(half + window.start..half + window.end);
                part.drain(window.clone());
            }
            Self::Clear => part.get_mut(window.clone())?.fill(0),
            Self::Halve | Self::Decrease => {
                for byte in part.get_mut(window.clone())? {
                    *byte = match self {
                        Self::Halve => *byte / 2,
                        _ => byte.saturating_sub(1),
                    };
                }
            }
        }
        Some(part)
    }
}

/// The request with every window changed in every way.
fn in_windows<'a>(
    request: &'a Request,
    changes: &'a [Change],
) -> impl Iterator<Item = Request> + 'a {
    let lengths = request.parts().into_iter().map(Vec::len);
    let windows = windows(lengths.max().unwrap_or_default());
    let pairs =
        windows.flat_map(|window| changes.iter().map(move |change| (change, window.clone())));
    pairs.flat_map(|(change, window)| changed(request, &|part| change.of(part, &window)))
}

/// All of so many bytes, then windows of each power of two, the longest first.
fn windows(length: usize) -> impl Iterator<Item = Range<usize>> {
    let powers = (0..=length.checked_ilog2().unwrap_or_default()).rev();
    let sizes = std::iter::once(length).chain(powers.map(|power| 1 << power));
    sizes.filter(|&size| size > 0).flat_map(move |size| {
        let starts = (0..length).step_by(size);
        starts.map(move |start| start..start + size)
    })
}
