//! The six files themselves, run on 8-aligned copies. A refusal comes back in their own words,
//! and so does a panic.

use std::any::Any;
use std::ops::Deref;
use std::panic::{catch_unwind, AssertUnwindSafe};

use crate::rules::{Kind, Measure, View};
use crate::vector::operations::{
    convert::vector_convert, distance_cos::vector_distance_cos, distance_dot::vector_distance_dot,
    distance_l2::vector_distance_l2, jaccard::vector_distance_jaccard,
};
use crate::vector::vector_types::{Vector, VectorType};

pub fn read(blob: &[u8]) -> Result<View, String> {
    run(|| {
        let copy = Aligned::new(blob);
        Ok(view(&Vector::from_slice(&copy)?))
    })
}

/// What the debug assertion of the sparse view would test.
pub fn indices_are_sorted(blob: &[u8]) -> Result<bool, String> {
    run(|| {
        let copy = Aligned::new(blob);
        let vector = Vector::from_slice(&copy)?;
        Ok(vector.as_f32_sparse().idx.is_sorted())
    })
}

pub fn convert(blob: &[u8], target: Kind) -> Result<View, String> {
    run(|| {
        let copy = Aligned::new(blob);
        let vector = Vector::from_slice(&copy)?;
        Ok(view(&vector_convert(vector, target.into())?))
    })
}

pub fn distance(measure: Measure, first: &[u8], second: &[u8]) -> Result<f64, String> {
    let function = match measure {
        Measure::Cos => vector_distance_cos,
        Measure::L2 => vector_distance_l2,
        Measure::Dot => vector_distance_dot,
        Measure::Jac => vector_distance_jaccard,
    };
    run(|| {
        let (first, second) = (Aligned::new(first), Aligned::new(second));
        function(&Vector::from_slice(&first)?, &Vector::from_slice(&second)?)
    })
}

/// The rules' number for the Rust's words; a panic has none.
pub fn number(words: &str) -> Option<u8> {
    const WORDS: [(&str, u8); 13] = [
        ("unsupported vector type from LibSQL", 2),
        ("unknown vector type", 3),
        ("must be even and non-empty", 4),
        ("must have even length >= 2", 4),
        ("exceed blob capacity", 5),
        ("is too short for", 5),
        ("data bytes but blob holds", 6),
        ("unexpected data length", 7),
        ("data length mismatch", 7),
        ("out of range for", 8),
        ("must have the same dimensions", 12),
        ("must be of the same type", 13),
        ("not supported for float1bit", 14),
    ];
    WORDS
        .iter()
        .find(|(part, _)| words.contains(part) && !words.starts_with(PANIC))
        .map(|&(_, number)| number)
}

/// The index that the Rust's words call out of range.
pub fn index_out_of_range(words: &str) -> Option<u32> {
    let (_, rest) = words.split_once("vector index ")?;
    let (index, _) = rest.split_once(" out of range for ")?;
    index.parse().ok()
}

const PANIC: &str = "panic: ";

pub fn run<T>(work: impl FnOnce() -> crate::Result<T>) -> Result<T, String> {
    caught(work)?.map_err(|error| error.to_string())
}

/// What some work gives, or the words of its panic.
pub fn caught<T>(work: impl FnOnce() -> T) -> Result<T, String> {
    catch_unwind(AssertUnwindSafe(work)).map_err(|panic| format!("{PANIC}{}", message(&*panic)))
}

fn message(panic: &(dyn Any + Send)) -> &str {
    let owned = panic.downcast_ref::<String>().map(String::as_str);
    owned
        .or_else(|| panic.downcast_ref::<&str>().copied())
        .unwrap_or("no words")
}

fn view(vector: &Vector) -> View {
    View {
        kind: vector.vector_type.into(),
        dims: vector.dims,
        body: vector.bin_data().to_vec(),
        readings: readings(vector),
    }
}

/// The count of readings: of a sparse vector the length of its own slice of indices, else dims.
fn readings(vector: &Vector) -> usize {
    match vector.vector_type {
        VectorType::Float32Sparse => vector.as_f32_sparse().idx.len(),
        _ => vector.dims,
    }
}

/// A copy of a blob that starts at a multiple of 8, as the Rust's slices of floats need it.
pub struct Aligned {
    room: Vec<u8>,
    start: usize,
    length: usize,
}

impl Aligned {
    pub fn new(blob: &[u8]) -> Self {
        let length = blob.len();
        let mut room = vec![0; length + 7];
        let start = room.as_ptr().align_offset(8);
        room[start..start + length].copy_from_slice(blob);
        Self {
            room,
            start,
            length,
        }
    }
}

impl Deref for Aligned {
    type Target = [u8];

    fn deref(&self) -> &[u8] {
        &self.room[self.start..self.start + self.length]
    }
}

impl From<VectorType> for Kind {
    fn from(vector_type: VectorType) -> Self {
        match vector_type {
            VectorType::Float32Dense => Kind::Float32Dense,
            VectorType::Float64Dense => Kind::Float64Dense,
            VectorType::Float1Bit => Kind::Float1Bit,
            VectorType::Float8 => Kind::Float8,
            VectorType::Float32Sparse => Kind::Float32Sparse,
        }
    }
}

impl From<Kind> for VectorType {
    fn from(kind: Kind) -> Self {
        match kind {
            Kind::Float32Dense => VectorType::Float32Dense,
            Kind::Float64Dense => VectorType::Float64Dense,
            Kind::Float1Bit => VectorType::Float1Bit,
            Kind::Float8 => VectorType::Float8,
            Kind::Float32Sparse => VectorType::Float32Sparse,
        }
    }
}

#[cfg(test)]
mod tests {
    use super::*;

    /// No blob has such a body, but `from_data` is public.
    #[test]
    fn a_direct_caller_reaches_the_float8_body_that_is_too_short() {
        let refused = Vector::from_data(VectorType::Float8, None, Some(&[0; 7]));
        let words = refused.map(|_| ()).map_err(|error| error.to_string());
        assert_eq!(words, Err("f8 vector data too short: 7".to_string()));
    }
}
