//! Files of vectors: the exports beside what the standard library does with as many bytes.

use std::hint::black_box;

use crate::cases::marked;
use crate::clock::{race, Times};
use crate::original::Aligned;
use crate::random::Random;
use crate::rules::Kind;
use crate::{ours, rides};

#[derive(Clone, Copy)]
pub enum FileWork {
    /// Each byte of a vector of a bvecs file as an f32.
    Widen,
    /// A Float32Dense blob appended to an fvecs file, beside a copy of as many bytes to the same places.
    Append,
}

/// What both sides are lent: the input, and a buffer each.
struct Lent {
    input: Aligned,
    out: Vec<u8>,
    their_out: Vec<u8>,
}

type Side = fn(&[u8], &mut [u8]) -> Result<usize, u32>;

impl FileWork {
    pub const ALL: [FileWork; 2] = [FileWork::Widen, FileWork::Append];

    pub fn title(self) -> &'static str {
        match self {
            FileWork::Widen => "bytes of bvecs to f32",
            FileWork::Append => "append to fvecs",
        }
    }

    fn sides(self) -> [Side; 2] {
        match self {
            FileWork::Widen => [ours::widen, widen],
            FileWork::Append => [ours::append, copy],
        }
    }

    fn lent(self, dims: usize) -> Lent {
        let input = match self {
            FileWork::Widen => {
                let count = (dims as u32).to_le_bytes();
                Aligned::new(&[&count[..], &Random::new(1).bytes(dims)].concat())
            }
            FileWork::Append => rides::blob(Kind::Float32Dense, dims, 1),
        };
        let [out, their_out] = [0; 2].map(|byte| vec![byte; 4 * dims + 4]);
        Lent {
            input,
            out,
            their_out,
        }
    }

    /// What both sides answer and leave, if that differs.
    pub fn difference(self, dims: usize) -> Option<[String; 2]> {
        let ([ours, theirs], mut lent) = (self.sides(), self.lent(dims));
        let ours = (ours(&lent.input, &mut lent.out), lent.out);
        let theirs = (theirs(&lent.input, &mut lent.their_out), lent.their_out);
        (ours != theirs).then(|| [format!("{ours:x?}"), format!("{theirs:x?}")])
    }

    pub fn time(self, dims: usize) -> Times {
        let ([ours, theirs], mut lent) = (self.sides(), self.lent(dims));
        race(
            || ours(black_box(&lent.input), black_box(&mut lent.out)),
            || theirs(black_box(&lent.input), black_box(&mut lent.their_out)),
        )
    }

    /// One call of one side, between two marks.
    pub fn once(self, dims: usize, is_ours: bool) {
        let ([ours, theirs], mut lent) = (self.sides(), self.lent(dims));
        if is_ours {
            marked(|| ours(&lent.input, &mut lent.out));
        } else {
            marked(|| theirs(&lent.input, &mut lent.their_out));
        }
    }
}

/// The dims of a vector of a bvecs file, whose bytes are put as floats.
fn widen(file: &[u8], out: &mut [u8]) -> Result<usize, u32> {
    let (count, elements) = file.split_at(4);
    let dims = u32::from_le_bytes(count.try_into().expect("a count has four bytes")) as usize;
    for (four, byte) in out.chunks_exact_mut(4).zip(&elements[..dims]) {
        four.copy_from_slice(&f32::from(*byte).to_le_bytes());
    }
    Ok(dims)
}

/// The length of a vector of an fvecs file, whose count and body are put at its start.
fn copy(blob: &[u8], out: &mut [u8]) -> Result<usize, u32> {
    let (count, body) = out.split_at_mut(4);
    count.copy_from_slice(&((blob.len() / 4) as u32).to_le_bytes());
    body[..blob.len()].copy_from_slice(blob);
    Ok(4 + blob.len())
}
