//! Files of vectors: fvecs, whose elements are f32, and bvecs, whose elements are bytes.

use std::iter::FusedIterator;

use crate::exports::{self, Answer};
use crate::{answered, Reason, Refusal, VectorType, View};

/// A vector of a file.
#[derive(Clone, Copy, Debug, PartialEq, Eq)]
pub struct Found<'a> {
    /// What it shows, as Float32Dense.
    pub view: View<'a>,
    /// The place where the next vector starts.
    pub next: usize,
}

/// The vector at a place of an fvecs file, as part of that file; nothing at or past its end. A place
/// inside a vector is taken as given. Refusals: 19 where the count is cut, 9, 19, which carries the place
/// ([`Refusal::place`]).
///
/// ```
/// use fulandewu::{fvecs_at, Reason};
///
/// // the reading 60, and a count that nothing follows
/// let file = [1, 0, 0, 0, 0, 0, 0x70, 0x42, 1, 0, 0, 0];
/// let found = fvecs_at(&file, 0)?.unwrap();
/// assert_eq!((found.view.dims(), found.view.body(), found.next), (1, &file[4..8], 8));
/// let refusal = fvecs_at(&file, found.next).unwrap_err();
/// assert_eq!((refusal.reason(), refusal.place()), (Reason::FileEndsInside, Some(8)));
/// assert_eq!(fvecs_at(&file, 12), Ok(None));
/// # Ok::<(), fulandewu::Refusal>(())
/// ```
pub fn fvecs_at(file: &[u8], place: usize) -> Result<Option<Found<'_>>, Refusal> {
    let mut answer = Answer::default();
    // SAFETY: the file is a slice, which is only read, and the answer is a local of its own.
    let number =
        unsafe { exports::fulandewu_fvecs_read(file.as_ptr(), file.len(), place, &mut answer) };
    answered(number, &answer)?;
    let elements = answer.start as usize..answer.next as usize;
    Ok(found(&answer, &file[elements]))
}

/// The vector at a place of a bvecs file, each byte as the f32 of that number in the first bytes of `out`;
/// nothing at or past the end of the file. No other byte of `out` changes. Refusals: those of
/// [`fvecs_at`], then 15, which carries the need.
///
/// ```
/// use fulandewu::bvecs_at;
///
/// // the readings 60 and 80
/// let file = [2, 0, 0, 0, 60, 80];
/// let mut out = [0; 8];
/// let found = bvecs_at(&file, 0, &mut out)?.unwrap();
/// assert_eq!((found.view.dims(), found.next), (2, 6));
/// assert_eq!(found.view.body(), [0, 0, 0x70, 0x42, 0, 0, 0xa0, 0x42]);
/// assert_eq!(bvecs_at(&file, 0, &mut []).unwrap_err().needed(), Some(8));
/// # Ok::<(), fulandewu::Refusal>(())
/// ```
pub fn bvecs_at<'a>(
    file: &[u8],
    place: usize,
    out: &'a mut [u8],
) -> Result<Option<Found<'a>>, Refusal> {
    let mut answer = Answer::default();
    // SAFETY: file and out are slices, which do not overlap, and the answer is a local of its own.
    let number = unsafe {
        exports::fulandewu_bvecs_read(
            file.as_ptr(),
            file.len(),
            place,
            out.as_mut_ptr(),
            out.len(),
            &mut answer,
        )
    };
    answered(number, &answer)?;
    Ok(found(&answer, &out[..4 * answer.dims as usize]))
}

/// What an answer found, with these elements, each of which is a reading.
fn found<'a>(answer: &Answer, elements: &'a [u8]) -> Option<Found<'a>> {
    if answer.found == 0 {
        return None;
    }
    let dims = answer.dims as usize;
    Some(Found {
        view: View::new(VectorType::Float32Dense, dims, dims, elements),
        next: answer.next as usize,
    })
}

/// The vectors of an fvecs file, from its start: see [`fvecs`].
#[derive(Clone, Debug)]
pub struct Fvecs<'a> {
    file: &'a [u8],
    /// Where the next vector starts; nothing after a refusal.
    place: Option<usize>,
}

/// Each vector of an fvecs file in its order, as part of that file. A refusal ends it: vectors before it
/// are shown, whatever follows.
///
/// ```
/// use fulandewu::fvecs;
///
/// // the readings 60 and 80, no reading, and a count that is cut
/// let file = [2, 0, 0, 0, 0, 0, 0x70, 0x42, 0, 0, 0xa0, 0x42, 0, 0, 0, 0, 1, 0];
/// let mut rides = fvecs(&file);
/// assert_eq!(rides.next().unwrap()?.body(), &file[4..12]);
/// assert_eq!(rides.next().unwrap()?.dims(), 0);
/// let refusal = rides.next().unwrap().unwrap_err();
/// assert_eq!((refusal.number(), refusal.place()), (19, Some(16)));
/// assert_eq!(rides.next(), None);
/// # Ok::<(), fulandewu::Refusal>(())
/// ```
pub fn fvecs(file: &[u8]) -> Fvecs<'_> {
    Fvecs {
        file,
        place: Some(0),
    }
}

impl<'a> Iterator for Fvecs<'a> {
    type Item = Result<View<'a>, Refusal>;

    fn next(&mut self) -> Option<Self::Item> {
        let place = self.place?;
        match fvecs_at(self.file, place) {
            Ok(found) => found.map(|vector| {
                self.place = Some(vector.next);
                Ok(vector.view)
            }),
            Err(refusal) => {
                self.place = None;
                Some(Err(refusal))
            }
        }
    }
}

impl FusedIterator for Fvecs<'_> {}

/// The vectors of a bvecs file, from its start: see [`bvecs`].
#[derive(Clone, Debug)]
pub struct Bvecs<'a> {
    file: &'a [u8],
    /// Where the next vector starts; nothing after a refusal.
    place: Option<usize>,
}

/// Each vector of a bvecs file in its order, by [`Bvecs::next_into`] a lent buffer.
///
/// ```
/// use fulandewu::bvecs;
///
/// // the readings 60 and 80, then 120
/// let file = [2, 0, 0, 0, 60, 80, 1, 0, 0, 0, 120];
/// let (mut rides, mut out, mut dims) = (bvecs(&file), [0; 8], Vec::new());
/// while let Some(ride) = rides.next_into(&mut out) {
///     dims.push(ride?.dims());
/// }
/// assert_eq!(dims, [2, 1]);
/// # Ok::<(), fulandewu::Refusal>(())
/// ```
pub fn bvecs(file: &[u8]) -> Bvecs<'_> {
    Bvecs {
        file,
        place: Some(0),
    }
}

impl Bvecs<'_> {
    /// The next vector, as [`bvecs_at`] has it; nothing at the end of the file. A refusal ends it, but for
    /// [`Reason::OutputTooShort`]: the same vector can be asked for again, with a longer buffer.
    pub fn next_into<'a>(&mut self, out: &'a mut [u8]) -> Option<Result<View<'a>, Refusal>> {
        match bvecs_at(self.file, self.place?, out) {
            Ok(found) => found.map(|vector| {
                self.place = Some(vector.next);
                Ok(vector.view)
            }),
            Err(refusal) => {
                if refusal.reason() != Reason::OutputTooShort {
                    self.place = None;
                }
                Some(Err(refusal))
            }
        }
    }
}

/// Appends a Float32Dense blob, with or without type byte, as a vector to the fvecs file that is in the
/// first `fill` bytes of `out`, and answers the new fill; no other byte changes. Where the first fill is 0
/// and each later one is the one last answered, [`fvecs`] of the filled bytes shows the bodies in order.
/// Refusals: 1 to 9, then 13, 15, which carries how many bytes are needed after the fill; a fill past the
/// end of `out` counts as no room.
///
/// ```
/// use fulandewu::{append_fvecs, fvecs};
///
/// let (ride, mut file) = ([0, 0, 0x70, 0x42], [0; 20]);
/// let fill = append_fvecs(&ride, &mut file, 0)?;
/// let fill = append_fvecs(&ride, &mut file, fill)?;
/// assert_eq!(fill, 16);
/// assert!(fvecs(&file[..fill]).all(|vector| vector.unwrap().body() == ride));
/// assert_eq!(append_fvecs(&ride, &mut file, fill).unwrap_err().needed(), Some(8));
/// # Ok::<(), fulandewu::Refusal>(())
/// ```
pub fn append_fvecs(blob: &[u8], out: &mut [u8], fill: usize) -> Result<usize, Refusal> {
    let mut answer = Answer::default();
    // SAFETY: blob and out are slices, which do not overlap, and the answer is a local of its own.
    let number = unsafe {
        exports::fulandewu_fvecs_append(
            blob.as_ptr(),
            blob.len(),
            out.as_mut_ptr(),
            out.len(),
            fill,
            &mut answer,
        )
    };
    answered(number, &answer)?;
    Ok(answer.fill as usize)
}
