//! The rules of docs/RULES.md, written from its tables: layouts, refusal numbers and their order.

use std::fmt;

use crate::differences::{MOST_DIMS, MOST_LENGTH};
use crate::hex;

/// The five kinds, each with its type byte.
#[derive(Clone, Copy, Debug, PartialEq, Eq)]
pub enum Kind {
    Float32Dense = 1,
    Float64Dense = 2,
    Float1Bit = 3,
    Float8 = 4,
    Float32Sparse = 9,
}

impl Kind {
    pub const ALL: [Kind; 5] = [
        Kind::Float32Dense,
        Kind::Float64Dense,
        Kind::Float1Bit,
        Kind::Float8,
        Kind::Float32Sparse,
    ];

    /// The kind of a type byte.
    pub fn named(type_byte: u8) -> Option<Kind> {
        Self::ALL.into_iter().find(|&kind| kind as u8 == type_byte)
    }

    /// The kind of a blob by its length and its last byte, whether it is accepted or not.
    pub fn of(blob: &[u8]) -> Option<Kind> {
        match blob.split_last() {
            Some((&type_byte, rest)) if rest.len().is_multiple_of(2) => Self::named(type_byte),
            _ => Some(Self::Float32Dense),
        }
    }

    /// Its place among all kinds.
    pub fn place(self) -> usize {
        let mut kinds = Self::ALL.into_iter();
        kinds.position(|kind| kind == self).expect("all are listed")
    }

    /// Whether a body of this length can hold this many dims.
    pub fn fits(self, dims: usize, length: usize) -> bool {
        match self {
            Kind::Float32Dense => length == 4 * dims,
            Kind::Float64Dense => length == 8 * dims,
            Kind::Float1Bit => length == dims.div_ceil(8),
            Kind::Float8 => length == dims.next_multiple_of(4) + 8,
            Kind::Float32Sparse => length.is_multiple_of(8),
        }
    }

    /// Kinds 3 and 4 cannot be empty.
    pub fn needs_dims(self) -> bool {
        matches!(self, Kind::Float1Bit | Kind::Float8)
    }
}

/// The four distances.
#[derive(Clone, Copy, Debug, PartialEq, Eq)]
pub enum Measure {
    Cos,
    L2,
    Dot,
    Jac,
}

impl Measure {
    pub const ALL: [Measure; 4] = [Measure::Cos, Measure::L2, Measure::Dot, Measure::Jac];

    /// Its name in a line.
    pub fn word(self) -> &'static str {
        match self {
            Measure::Cos => "cos",
            Measure::L2 => "l2",
            Measure::Dot => "dot",
            Measure::Jac => "jac",
        }
    }
}

/// A number of the table of refusals, and what it carries: 8 and 10 the entry that is wrong, 15 and 17 the
/// need, 19 the place where the vector starts.
#[derive(Clone, Copy, Debug, PartialEq, Eq)]
pub struct Refusal {
    pub number: u8,
    pub carried: Option<usize>,
}

impl Refusal {
    pub fn carrying(number: u8, carried: usize) -> Self {
        let carried = Some(carried);
        Self { number, carried }
    }
}

/// A refusal that carries nothing.
impl From<u8> for Refusal {
    fn from(number: u8) -> Self {
        let carried = None;
        Self { number, carried }
    }
}

/// What a reader shows of a blob.
#[derive(Clone, PartialEq, Eq)]
pub struct View {
    pub kind: Kind,
    pub dims: usize,
    pub body: Vec<u8>,
    pub readings: usize,
}

impl View {
    /// The view of a body, with the count of readings that the rules give it.
    pub fn new(kind: Kind, dims: usize, body: &[u8]) -> Self {
        Self {
            kind,
            dims,
            body: body.to_vec(),
            readings: readings(kind, dims, body),
        }
    }
}

impl fmt::Debug for View {
    fn fmt(&self, f: &mut fmt::Formatter<'_>) -> fmt::Result {
        let (kind, dims, readings) = (self.kind, self.dims, self.readings);
        let body = hex::encode(&self.body);
        write!(
            f,
            "{kind:?} of {dims} dims, {readings} readings, body {body:?}"
        )
    }
}

/// The count of readings: the entries of a sparse body, repeats and stored zeros too; else dims.
pub fn readings(kind: Kind, dims: usize, body: &[u8]) -> usize {
    match kind {
        Kind::Float32Sparse => body.len() / 8,
        _ => dims,
    }
}

/// The plain mode: refusals 1 to 9 in their order.
pub fn read(blob: &[u8]) -> Result<View, Refusal> {
    limited(blob, layout(blob))
}

/// What the reader without its limits shows of a blob, with the limits: 1 comes first and 9 last.
pub fn limited(blob: &[u8], layout: Result<View, Refusal>) -> Result<View, Refusal> {
    if blob.len() > MOST_LENGTH {
        return Err(1.into());
    }
    let view = layout?;
    if view.dims > MOST_DIMS {
        return Err(9.into());
    }
    Ok(view)
}

/// The reader without its limits, as the Rust has it: refusals 2 to 8.
pub fn layout(blob: &[u8]) -> Result<View, Refusal> {
    if blob.len().is_multiple_of(2) {
        return dense(Kind::Float32Dense, 4, blob);
    }
    let (type_byte, rest) = blob.split_last().expect("an odd length is not 0");
    match type_byte {
        1 => dense(Kind::Float32Dense, 4, rest),
        2 => dense(Kind::Float64Dense, 8, rest),
        3 => one_bit(rest),
        4 => float8(rest),
        9 => sparse(rest),
        5 | 6 => Err(2.into()),
        _ => Err(3.into()),
    }
}

fn dense(kind: Kind, width: usize, body: &[u8]) -> Result<View, Refusal> {
    if !body.len().is_multiple_of(width) {
        return Err(7.into());
    }
    Ok(View::new(kind, body.len() / width, body))
}

fn one_bit(rest: &[u8]) -> Result<View, Refusal> {
    let n = rest.len();
    let trailing_bits = usize::from(*rest.last().ok_or(4)?);
    let dims = (8 * n).checked_sub(trailing_bits).ok_or(5)?;
    let length = dims.div_ceil(8);
    if length >= n {
        return Err(6.into());
    }
    if dims == 0 {
        return Err(7.into());
    }
    Ok(View::new(Kind::Float1Bit, dims, &rest[..length]))
}

fn float8(rest: &[u8]) -> Result<View, Refusal> {
    let n = rest.len();
    let trailing_bytes = usize::from(*rest.last().ok_or(4)?);
    let dims = n.checked_sub(10 + trailing_bytes).ok_or(5)?;
    let body = &rest[..n - 2];
    if dims == 0 || !Kind::Float8.fits(dims, body.len()) {
        return Err(7.into());
    }
    Ok(View::new(Kind::Float8, dims, body))
}

fn sparse(rest: &[u8]) -> Result<View, Refusal> {
    let (body, dims) = rest.split_last_chunk().ok_or(7)?;
    if !body.len().is_multiple_of(8) {
        return Err(7.into());
    }
    let dims = u32::from_le_bytes(*dims) as usize;
    inside(dims, body)?;
    Ok(View::new(Kind::Float32Sparse, dims, body))
}

/// The indices of a sparse body, which follow its values.
pub fn indices(body: &[u8]) -> impl Iterator<Item = u32> + '_ {
    let (words, _) = body[body.len() / 2..].as_chunks();
    words.iter().map(|&word| u32::from_le_bytes(word))
}

/// Whether every index of a sparse body is below dims: 8, with the first entry that is not.
fn inside(dims: usize, body: &[u8]) -> Result<(), Refusal> {
    let outside = indices(body).position(|index| index as usize >= dims);
    outside.map_or(Ok(()), |entry| Err(Refusal::carrying(8, entry)))
}

/// Each index of a body, from entry 1 on, beside the one before it.
pub fn neighbours(body: &[u8]) -> impl Iterator<Item = (u32, u32)> + '_ {
    indices(body).zip(indices(body).skip(1))
}

/// Whether the indices of a sparse body rise: 10, with the first entry that is not above the one before it.
fn rising(body: &[u8]) -> Result<(), Refusal> {
    let wrong = neighbours(body).position(|(before, index)| index <= before);
    wrong.map_or(Ok(()), |pair| Err(Refusal::carrying(10, pair + 1)))
}

/// What the strict mode tests besides: 10, then 11.
pub fn strict(view: &View) -> Result<(), Refusal> {
    match view.kind {
        Kind::Float32Sparse => rising(&view.body),
        Kind::Float1Bit if unused_bits(view) > 0 => Err(11.into()),
        _ => Ok(()),
    }
}

/// The bits of the last 1-bit byte that belong to no dim.
fn unused_bits(view: &View) -> u8 {
    match view.dims % 8 {
        0 => 0,
        used => view.body[view.dims / 8] >> used,
    }
}

/// The writer: 9, 7, 1, 8, 16 in this order, or the blob.
pub fn write(kind: Kind, dims: usize, body: &[u8]) -> Result<Vec<u8>, Refusal> {
    if dims > MOST_DIMS {
        return Err(9.into());
    }
    if !kind.fits(dims, body.len()) {
        return Err(7.into());
    }
    let blob = blob(kind, dims, body);
    if blob.len() > MOST_LENGTH {
        return Err(1.into());
    }
    if kind == Kind::Float32Sparse {
        inside(dims, body)?;
    }
    if kind.needs_dims() && dims == 0 {
        return Err(16.into());
    }
    Ok(blob)
}

/// The blob of a kind, dims and body.
pub fn blob(kind: Kind, dims: usize, body: &[u8]) -> Vec<u8> {
    [body, &trailer(kind, dims, body.len())].concat()
}

/// What follows a written body: its padding, trailing count or dims, and its type byte.
fn trailer(kind: Kind, dims: usize, length: usize) -> Vec<u8> {
    let type_byte = kind as u8;
    match kind {
        Kind::Float32Dense => vec![],
        Kind::Float64Dense => vec![type_byte],
        Kind::Float1Bit if length.is_multiple_of(2) => {
            vec![0, (8 * (length + 2) - dims) as u8, type_byte]
        }
        Kind::Float1Bit => vec![(8 * (length + 1) - dims) as u8, type_byte],
        Kind::Float8 => vec![0, (length - 8 - dims) as u8, type_byte],
        Kind::Float32Sparse => {
            let [a, b, c, d] = (dims as u32).to_le_bytes();
            vec![a, b, c, d, type_byte]
        }
    }
}

/// Whether two vectors may be compared at all: 12, then 13.
pub fn alike(first: &View, second: &View) -> Result<(), Refusal> {
    if first.dims != second.dims {
        return Err(12.into());
    }
    if first.kind != second.kind {
        return Err(13.into());
    }
    Ok(())
}

/// Whether a kind has a distance: 14.
pub fn defined(measure: Measure, kind: Kind) -> Result<(), Refusal> {
    match (measure, kind) {
        (Measure::L2, Kind::Float1Bit) => Err(14.into()),
        _ => Ok(()),
    }
}

/// Which of two distances is nearer, 1 or 2: a tie gives the first, NaN loses, 18 if both are NaN.
pub fn nearer(first: f64, second: f64) -> Result<u8, Refusal> {
    match (first.is_nan(), second.is_nan()) {
        (true, true) => Err(18.into()),
        (true, false) => Ok(2),
        (false, true) => Ok(1),
        (false, false) => Ok(if second < first { 2 } else { 1 }),
    }
}

/// A sparse body with these indices, for tests.
#[cfg(test)]
pub fn sparse_body(indices: &[u32]) -> Vec<u8> {
    let values = vec![0; 4 * indices.len()];
    let indices = indices.iter().flat_map(|index| index.to_le_bytes());
    values.into_iter().chain(indices).collect()
}

#[cfg(test)]
mod tests {
    use super::*;

    /// The rows of the table of layouts, kinds 3 and 4, by n and the byte before the last.
    fn row(kind: Kind, n: usize, t: usize) -> Option<usize> {
        match kind {
            Kind::Float1Bit => (n >= 2 && 8 <= t && t < 8 * n).then(|| 8 * n - t),
            _ => (n >= 14 && (n - 10).is_multiple_of(4) && t <= 3).then(|| n - 10 - t),
        }
    }

    #[test]
    fn refusals_and_rows_agree() {
        for kind in [Kind::Float1Bit, Kind::Float8] {
            for n in (2..80).step_by(2) {
                for t in 0..=255 {
                    let mut blob = vec![0; n - 1];
                    blob.extend([t, kind as u8]);
                    let dims = read(&blob).ok().map(|view| view.dims);
                    assert_eq!(dims, row(kind, n, t.into()), "{kind:?}, n {n}, t {t}");
                }
            }
        }
    }

    #[test]
    fn limits_come_where_document_01_has_them() {
        let dense = |dims: usize| read(&vec![0; 4 * dims]).map(|view| view.dims);
        assert_eq!(dense(65_536), Ok(65_536));
        assert_eq!(dense(65_537), Err(9.into()));
        let doubles = |dims: usize| read(&[vec![0; 8 * dims], vec![2]].concat());
        assert_eq!(doubles(65_537), Err(1.into()));
        let entries = |count: usize| write(Kind::Float32Sparse, 1, &vec![0; 8 * count]);
        assert_eq!(entries(65_536).map(|blob| blob.len()), Ok(524_293));
        assert_eq!(entries(65_537), Err(1.into()));
    }

    #[test]
    fn the_first_wrong_entry_is_named() {
        let sparse = |indices: &[u32]| {
            let (kind, body) = (Kind::Float32Sparse, sparse_body(indices));
            (
                read(&blob(kind, 4, &body)).err(),
                write(kind, 4, &body).err(),
            )
        };
        let both = |entry: usize| {
            (
                Some(Refusal::carrying(8, entry)),
                Some(Refusal::carrying(8, entry)),
            )
        };
        assert_eq!(sparse(&[]), (None, None));
        assert_eq!(sparse(&[3, 0, 3]), (None, None));
        assert_eq!(sparse(&[4]), both(0));
        assert_eq!(sparse(&[0, 1, 4]), both(2));
        assert_eq!(sparse(&[0, 9, 1, 4]), both(1));
    }

    #[test]
    fn the_first_entry_that_does_not_rise_is_named() {
        let sparse = |indices: &[u32]| {
            strict(&View::new(Kind::Float32Sparse, 9, &sparse_body(indices))).err()
        };
        let at = |entry: usize| Some(Refusal::carrying(10, entry));
        assert_eq!(sparse(&[]), None);
        assert_eq!(sparse(&[0]), None);
        assert_eq!(sparse(&[0, 1, 8]), None);
        assert_eq!(sparse(&[0, 0]), at(1));
        assert_eq!(sparse(&[3, 3, 4]), at(1));
        assert_eq!(sparse(&[3, 4, 4]), at(2));
        assert_eq!(sparse(&[2, 5, 5, 1]), at(2));
        assert_eq!(sparse(&[2, 5, 1, 1]), at(2));
        assert_eq!(sparse(&[8, 0]), at(1));
    }

    #[test]
    fn a_written_blob_reads_back() {
        for kind in Kind::ALL {
            for dims in 1..100 {
                let length = (0..1000).rev().find(|&length| kind.fits(dims, length));
                let body = vec![0; length.expect("some length fits")];
                let blob = write(kind, dims, &body).expect("a fitting body is written");
                assert_eq!(read(&blob), Ok(View::new(kind, dims, &body)));
            }
        }
    }

    #[test]
    fn readings_are_the_entries_or_dims() {
        let count = |indices: &[u32]| readings(Kind::Float32Sparse, 3, &sparse_body(indices));
        assert_eq!(count(&[]), 0);
        assert_eq!(count(&[0, 2]), 2);
        assert_eq!(count(&[1, 1, 0, 1]), 4);
        for kind in Kind::ALL {
            for dims in 1..100 {
                let length = (0..1000).find(|&length| kind.fits(dims, length));
                let body = vec![0; length.expect("some length fits")];
                let expected = if body.is_empty() { 0 } else { dims };
                assert_eq!(readings(kind, dims, &body), expected, "{kind:?}");
            }
        }
    }
}
