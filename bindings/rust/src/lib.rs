//! Vector blobs read, written, converted, measured and compared, and files of vectors read and filled,
//! by proved functions: safe functions over `libfulandewu.a`. Every blob, pair, file and buffer gets a
//! defined answer, and nothing panics. The archive is for 64-bit Linux, on x86-64 or aarch64.
//!
//! ```
//! use fulandewu::{distance, read, Distance, Mode, Reason, VectorType};
//!
//! // the readings 60 and 80, and 120 and 160, as Float32Dense
//! let old = [0, 0, 0x70, 0x42, 0, 0, 0xa0, 0x42];
//! let new = [0, 0, 0xf0, 0x42, 0, 0, 0x20, 0x43];
//! let view = read(Mode::Plain, &old)?;
//! assert_eq!((view.kind(), view.dims()), (VectorType::Float32Dense, 2));
//! assert_eq!(distance(Distance::L2, &old, &new)?.distance, 100.0);
//! // both point the same way, and are not alike
//! assert_eq!(distance(Distance::Cos, &old, &new)?.distance, 0.0);
//!
//! let refusal = distance(Distance::L2, &old, &new[..4]).unwrap_err();
//! assert_eq!((refusal.reason(), refusal.number()), (Reason::DimsDiffer, 12));
//! # Ok::<(), fulandewu::Refusal>(())
//! ```
//!
//! Three mistakes lose sessions:
//!
//! - An absent reading is not a reading of 0. A sparse vector without entries has cosine NaN; made
//!   dense it is a vector of zeros, and the difference is gone.
//! - Distance zero is not likeness. Cosine is 0.0 for two vectors of zeros, and for vectors that only
//!   point the same way. NaN is an answer too, always of the pattern 7ff8000000000000: there is no
//!   likeness to measure. It is not far and not near, so test [`f64::is_nan`] before comparing.
//! - A blob's length is not its dims: ask [`read`]. Nor are dims readings: a sparse vector of dims 360 may
//!   hold four. [`View::readings`] counts them; made dense it is 360, and nothing tells which four were read.
//!
//! ```
//! use fulandewu::{distance, Distance};
//!
//! // two sparse rides of two places with no reading in them
//! let none = [2, 0, 0, 0, 9];
//! let measured = distance(Distance::Cos, &none, &none)?;
//! assert_eq!(measured.distance.to_bits(), 0x7ff8_0000_0000_0000);
//! assert_eq!((measured.readings, measured.other_readings), (0, 0));
//! # Ok::<(), fulandewu::Refusal>(())
//! ```

#![warn(missing_docs)]

mod exports;
mod files;
mod refusal;
mod view;

use exports::Answer;
pub use files::{append_fvecs, bvecs, bvecs_at, fvecs, fvecs_at, Bvecs, Found, Fvecs};
pub use refusal::{Reason, Refusal, Which};
pub use view::{VectorType, View};

/// The longest blob, in bytes.
pub const LONGEST: usize = 524_293;

/// The most elements of a vector, which are also the most readings.
pub const MOST_DIMS: usize = 65_536;

/// How a blob is read. Conversions, distances, [`nearer()`] and [`append_fvecs()`] read plainly.
#[derive(Clone, Copy, Debug, PartialEq, Eq, Hash)]
pub enum Mode {
    /// As turso reads it.
    Plain = 0,
    /// Each sparse index is to be above the one before it, and unused bits zero, besides.
    Strict = 1,
}

/// The four distances.
#[derive(Clone, Copy, Debug, PartialEq, Eq, Hash)]
pub enum Distance {
    /// Cosine; of 1-bit vectors the count of differing bits.
    Cos,
    /// Euclidean; there is none of 1-bit vectors.
    L2,
    /// The negated dot product.
    Dot,
    /// Jaccard.
    Jaccard,
}

/// Nothing for an answer, else the refusal with the entry, the need or the place that it carries.
fn answered(number: u32, answer: &Answer) -> Result<(), Refusal> {
    match Refusal::numbered(number) {
        None => Ok(()),
        Some(refusal) => Err(refusal
            .naming(answer.entry as usize)
            .needing(answer.needed as usize)
            .starting(answer.place as usize)),
    }
}

/// The vector of an answer, whose body is in the first of these bytes.
fn shown<'a>(kind: VectorType, answer: &Answer, bytes: &'a [u8]) -> View<'a> {
    let body = &bytes[..answer.length as usize];
    View::new(kind, answer.dims as usize, answer.readings as usize, body)
}

/// Reads a blob in a mode. Refusals: 1 to 9, and of [`Mode::Strict`] 10 and 11, in that order; 8 and 10 name
/// an entry ([`Refusal::entry`]), 8 also where a blob is read to be converted, measured or appended. Both
/// modes show the same of a blob that both accept.
///
/// ```
/// use fulandewu::{read, Mode, Reason, VectorType};
///
/// let view = read(Mode::Plain, &[0xaa, 0x08, 3])?;
/// assert_eq!((view.kind(), view.dims(), view.body()), (VectorType::Float1Bit, 8, &[0xaa][..]));
///
/// // the reading 60 at place 1 of 3
/// let sparse = [0, 0, 0x70, 0x42, 1, 0, 0, 0, 3, 0, 0, 0, 9];
/// let view = read(Mode::Plain, &sparse)?;
/// assert_eq!((view.dims(), view.readings()), (3, 1));
/// assert_eq!(view.values(), Some(&sparse[..4]));
/// assert_eq!(view.indices(), Some(&sparse[4..8]));
///
/// // of two entries the second is at place 5 of 3
/// let wrong = [0, 0, 0x70, 0x42, 0, 0, 0x70, 0x42, 1, 0, 0, 0, 5, 0, 0, 0, 3, 0, 0, 0, 9];
/// let refusal = read(Mode::Plain, &wrong).unwrap_err();
/// assert_eq!((refusal.reason(), refusal.entry()), (Reason::IndexNotBelowDims, Some(1)));
///
/// // both entries are at place 0
/// let twice = [0, 0, 0x70, 0x42, 0, 0, 0x70, 0x42, 0, 0, 0, 0, 0, 0, 0, 0, 3, 0, 0, 0, 9];
/// assert_eq!(read(Mode::Plain, &twice)?.readings(), 2);
/// let refusal = read(Mode::Strict, &twice).unwrap_err();
/// assert_eq!((refusal.reason(), refusal.entry()), (Reason::SparseOrder, Some(1)));
///
/// // one bit does not count, and it is set
/// assert_eq!(read(Mode::Plain, &[0xff, 0x09, 3])?.dims(), 7);
/// let refusal = read(Mode::Strict, &[0xff, 0x09, 3]).unwrap_err();
/// assert_eq!(refusal.reason(), Reason::UnusedBitSet);
/// # Ok::<(), fulandewu::Refusal>(())
/// ```
pub fn read(mode: Mode, blob: &[u8]) -> Result<View<'_>, Refusal> {
    let mut answer = Answer::default();
    // SAFETY: the blob is a slice, which is only read, and the answer is a local of its own.
    let number =
        unsafe { exports::fulandewu_read(mode as u8, blob.as_ptr(), blob.len(), &mut answer) };
    answered(number, &answer)?;
    let kind = VectorType::named(answer.kind as u8).expect("an accepted blob has a kind");
    Ok(shown(kind, &answer, blob))
}

/// Writes the blob of a kind, dims and body (a sparse body: values, then indices, without dims) to the
/// first bytes of `out`, changes no byte past them, and answers its length. It reads back plainly as the
/// same kind, dims and body. Refusals: 9, 7, 1, 8, 16, 15, in that order; 8 names the entry, and 15 carries
/// the need, so an empty `out` asks for it.
///
/// ```
/// use fulandewu::{write, VectorType};
///
/// let body = [0xaa];
/// let needed = write(VectorType::Float1Bit, 8, &body, &mut []).unwrap_err().needed().unwrap();
/// let mut blob = vec![0; needed];
/// let length = write(VectorType::Float1Bit, 8, &body, &mut blob)?;
/// assert_eq!(blob[..length], [0xaa, 0x08, 3]);
/// # Ok::<(), fulandewu::Refusal>(())
/// ```
pub fn write(kind: VectorType, dims: usize, body: &[u8], out: &mut [u8]) -> Result<usize, Refusal> {
    let mut answer = Answer::default();
    // SAFETY: body and out are slices, which do not overlap, and the answer is a local of its own.
    let number = unsafe {
        exports::fulandewu_write(
            kind.byte(),
            dims,
            body.as_ptr(),
            body.len(),
            out.as_mut_ptr(),
            out.len(),
            &mut answer,
        )
    };
    answered(number, &answer)?;
    Ok(answer.length as usize)
}

/// Converts a blob to another kind, or the same: the new body goes to the first bytes of `out`, no byte
/// past them changes, and the view shows it. It is a body and no blob: [`write()`] makes one of it.
/// `scratch` is used only from sparse to 1-bit or Float8: 4 * dims bytes, where the dense body is left.
/// The readings are the new vector's: a zero that is dropped on the way to sparse lowers the count, sparse
/// made another kind has dims of them, and the same kind keeps its count. Refusals: 1 to 9, then 17, 15,
/// which carry the need.
///
/// ```
/// use fulandewu::{convert, VectorType};
///
/// // the reading 60 at place 1 of 3, made dense: the gaps become zeros, and count
/// let sparse = [0, 0, 0x70, 0x42, 1, 0, 0, 0, 3, 0, 0, 0, 9];
/// let mut out = [0; 12];
/// let view = convert(&sparse, VectorType::Float32Dense, &mut [], &mut out)?;
/// assert_eq!((view.dims(), view.readings()), (3, 3));
/// assert_eq!(view.body(), [0, 0, 0, 0, 0, 0, 0x70, 0x42, 0, 0, 0, 0]);
///
/// let refusal = convert(&sparse, VectorType::Float1Bit, &mut [], &mut out).unwrap_err();
/// assert_eq!((refusal.number(), refusal.needed()), (17, Some(12)));
/// # Ok::<(), fulandewu::Refusal>(())
/// ```
pub fn convert<'a>(
    blob: &[u8],
    kind: VectorType,
    scratch: &mut [u8],
    out: &'a mut [u8],
) -> Result<View<'a>, Refusal> {
    let mut answer = Answer::default();
    // SAFETY: blob, scratch and out are slices, which do not overlap, and the answer is a local of its
    // own.
    let number = unsafe {
        exports::fulandewu_convert(
            blob.as_ptr(),
            blob.len(),
            kind.byte(),
            scratch.as_mut_ptr(),
            scratch.len(),
            out.as_mut_ptr(),
            out.len(),
            &mut answer,
        )
    };
    answered(number, &answer)?;
    Ok(shown(kind, &answer, out))
}

/// A distance, and how many readings its two blobs have, as [`View::readings`] counts them.
#[derive(Clone, Copy, Debug, PartialEq)]
pub struct Measured {
    /// How far, which may be NaN.
    pub distance: f64,
    /// How many the first blob has.
    pub readings: usize,
    /// How many the second blob has.
    pub other_readings: usize,
}

/// The distance of two blobs. Refusals: 1 to 9 of the first blob, then of the second, which name it
/// ([`Refusal::which`]); 12, 13; L2 of 1-bit vectors: 14.
///
/// ```
/// use fulandewu::{distance, Distance, Measured, Which};
///
/// let (one, other) = ([0xaa, 0x08, 3], [0xab, 0x08, 3]);
/// assert_eq!(distance(Distance::Cos, &one, &other)?.distance, 1.0);
/// assert_eq!(distance(Distance::L2, &one, &other).unwrap_err().number(), 14);
/// assert_eq!(distance(Distance::Cos, &one, &[7]).unwrap_err().which(), Some(Which::Second));
///
/// // the readings 60 and 80 in three places, and none
/// let two = [0, 0, 0x70, 0x42, 0, 0, 0xa0, 0x42, 0, 0, 0, 0, 2, 0, 0, 0, 3, 0, 0, 0, 9];
/// let measured = distance(Distance::L2, &two, &[3, 0, 0, 0, 9])?;
/// assert_eq!(measured, Measured { distance: 100.0, readings: 2, other_readings: 0 });
/// # Ok::<(), fulandewu::Refusal>(())
/// ```
pub fn distance(asked: Distance, first: &[u8], second: &[u8]) -> Result<Measured, Refusal> {
    let measure: exports::Measure = match asked {
        Distance::Cos => exports::fulandewu_distance_cos,
        Distance::L2 => exports::fulandewu_distance_l2,
        Distance::Dot => exports::fulandewu_distance_dot,
        Distance::Jaccard => exports::fulandewu_distance_jaccard,
    };
    let mut answer = Answer::default();
    // SAFETY: the blobs are slices, which are only read, and the answer is a local of its own.
    let number = unsafe {
        measure(
            first.as_ptr(),
            first.len(),
            second.as_ptr(),
            second.len(),
            &mut answer,
        )
    };
    answered(number, &answer).map_err(|refusal| refusal.about(answer.which))?;
    Ok(Measured {
        distance: answer.distance,
        readings: answer.readings as usize,
        other_readings: answer.other_readings as usize,
    })
}

/// The nearer of two candidates.
#[derive(Clone, Copy, Debug, PartialEq, Eq, Hash)]
pub enum Candidate {
    /// The first.
    First,
    /// The second.
    Second,
}

/// The nearer candidate, its distance from the probe, which is never NaN, and how many readings it has.
#[derive(Clone, Copy, Debug, PartialEq)]
pub struct Nearer {
    /// Which.
    pub candidate: Candidate,
    /// How far.
    pub distance: f64,
    /// How many readings the candidate has; those of the probe are not counted here.
    pub readings: usize,
}

/// The nearer of two candidates to a probe, which is the first vector of each pair. A tie (0.0 against
/// -0.0 too) gives the first, and NaN loses to all else. Refusals: 1 to 9 of the probe, the first and
/// the second, which name it ([`Refusal::which`]); 12, 13 of the first pair, then of the second; 14; 18.
///
/// ```
/// use fulandewu::{nearer, Candidate, Distance};
///
/// let probe = [0, 0, 0x70, 0x42];
/// let (far, near) = ([0, 0, 0x20, 0x43], [0, 0, 0xa0, 0x42]);
/// let found = nearer(Distance::L2, &probe, &far, &near)?;
/// assert_eq!((found.candidate, found.distance), (Candidate::Second, 20.0));
/// assert_eq!(found.readings, 1);
///
/// // no reading in any of them: nothing is near
/// let none = [2, 0, 0, 0, 9];
/// assert_eq!(nearer(Distance::Cos, &none, &none, &none).unwrap_err().number(), 18);
/// # Ok::<(), fulandewu::Refusal>(())
/// ```
pub fn nearer(
    asked: Distance,
    probe: &[u8],
    first: &[u8],
    second: &[u8],
) -> Result<Nearer, Refusal> {
    let chooser: exports::Chooser = match asked {
        Distance::Cos => exports::fulandewu_nearer_cos,
        Distance::L2 => exports::fulandewu_nearer_l2,
        Distance::Dot => exports::fulandewu_nearer_dot,
        Distance::Jaccard => exports::fulandewu_nearer_jaccard,
    };
    let mut answer = Answer::default();
    // SAFETY: the blobs are slices, which are only read, and the answer is a local of its own.
    let number = unsafe {
        chooser(
            probe.as_ptr(),
            probe.len(),
            first.as_ptr(),
            first.len(),
            second.as_ptr(),
            second.len(),
            &mut answer,
        )
    };
    answered(number, &answer).map_err(|refusal| refusal.about(answer.which))?;
    let candidate = if answer.nearer == 1 {
        Candidate::First
    } else {
        Candidate::Second
    };
    Ok(Nearer {
        candidate,
        distance: answer.distance,
        readings: answer.readings as usize,
    })
}
