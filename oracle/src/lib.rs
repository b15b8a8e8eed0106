//! The Rust side of differential runs: the vector module of turso_core, unchanged, beside the rules. Lines
//! are answered as our programs must answer them, and requests are put to our archive in the same process.

mod differences;
pub mod generate;
mod hex;
pub mod lines;
pub mod oracle;
mod original;
pub mod request;
pub mod rules;
pub mod soak;
mod stand_ins;
mod vecs;

/// The six files as published: the build copies them here and changes nothing.
#[rustfmt::skip]
#[allow(dead_code, unstable_name_collisions, clippy::all)]
mod vector {
    pub mod operations {
        pub mod convert;
        pub mod distance_cos;
        pub mod distance_dot;
        pub mod distance_l2;
        pub mod jaccard;
    }
    pub mod vector_types;
}

// The names under which the six files look for what they import.
use stand_ins::{alloc, turso_debug_assert, types, LimboError, Result, ValueBlob};
