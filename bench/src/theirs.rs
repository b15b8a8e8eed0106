//! The Rust's side: a blob is read, then measured or converted, as its callers do it.

use crate::rules::Measure;
use crate::vector::operations::{
    convert::vector_convert, distance_cos::vector_distance_cos, distance_dot::vector_distance_dot,
    distance_l2::vector_distance_l2, jaccard::vector_distance_jaccard,
};
use crate::vector::vector_types::{Vector, VectorType};

pub type Function = fn(&Vector, &Vector) -> crate::Result<f64>;

pub fn function(measure: Measure) -> Function {
    match measure {
        Measure::Cos => vector_distance_cos,
        Measure::L2 => vector_distance_l2,
        Measure::Dot => vector_distance_dot,
        Measure::Jac => vector_distance_jaccard,
    }
}

pub fn distance(function: Function, first: &[u8], second: &[u8]) -> f64 {
    function(&read(first), &read(second)).expect("the distance exists")
}

/// The result is allocated, as the Rust has it.
pub fn convert(blob: &[u8], target: VectorType) -> Vector<'_> {
    vector_convert(read(blob), target).expect("every pair converts")
}

fn read(blob: &[u8]) -> Vector<'_> {
    Vector::from_slice(blob).expect("the blob is a ride")
}
