//! What several tests go through: every kind and every distance.

use fulandewu::{Distance, VectorType};

pub const KINDS: [VectorType; 5] = [
    VectorType::Float32Dense,
    VectorType::Float64Dense,
    VectorType::Float1Bit,
    VectorType::Float8,
    VectorType::Float32Sparse,
];

pub const DISTANCES: [Distance; 4] = [
    Distance::Cos,
    Distance::L2,
    Distance::Dot,
    Distance::Jaccard,
];
