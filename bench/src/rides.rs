//! Rides to measure: the same readings as a blob of each kind.

use crate::original::Aligned;
use crate::random::Random;
use crate::rules::{write, Kind};
use crate::theirs;

/// A ride's blob of a kind, where the Rust can read it.
pub fn blob(kind: Kind, dims: usize, seed: u64) -> Aligned {
    match kind {
        Kind::Float32Dense => singles(&readings(dims, seed)),
        Kind::Float64Dense => {
            let doubles = readings(dims, seed);
            written(
                kind,
                dims,
                &doubles
                    .iter()
                    .flat_map(|x| x.to_le_bytes())
                    .collect::<Vec<_>>(),
            )
        }
        Kind::Float1Bit => written(kind, dims, &Random::new(seed).bytes(dims.div_ceil(8))),
        Kind::Float8 => converted(&singles(&readings(dims, seed)), kind),
        Kind::Float32Sparse => converted(&singles(&sparse_readings(dims, seed)), kind),
    }
}

/// A blob that is worth making sparse: of a kind with floats, most of them 0.0.
pub fn gappy_blob(kind: Kind, dims: usize, seed: u64) -> Aligned {
    match kind {
        Kind::Float32Dense => singles(&sparse_readings(dims, seed)),
        Kind::Float64Dense => {
            let doubles = sparse_readings(dims, seed);
            written(
                kind,
                dims,
                &doubles
                    .iter()
                    .flat_map(|x| x.to_le_bytes())
                    .collect::<Vec<_>>(),
            )
        }
        _ => blob(kind, dims, seed),
    }
}

/// Heart rates of 60 to 190 with noise. A few are negative, as differences would be, so that a
/// conversion to 1-bit meets both.
fn readings(dims: usize, seed: u64) -> Vec<f64> {
    let mut random = Random::new(seed);
    (0..dims)
        .map(|_| {
            let rate =
                random.between(60..=190) as f64 + random.below(1 << 30) as f64 / f64::from(1 << 30);
            if random.one_in(32) {
                -rate
            } else {
                rate
            }
        })
        .collect()
}

/// A tenth of the readings; the others are absent, 0.0.
fn sparse_readings(dims: usize, seed: u64) -> Vec<f64> {
    let mut random = Random::new(!seed);
    let keep = |x| if random.one_in(10) { x } else { 0.0 };
    readings(dims, seed).into_iter().map(keep).collect()
}

fn singles(readings: &[f64]) -> Aligned {
    let body: Vec<u8> = readings
        .iter()
        .flat_map(|&x| (x as f32).to_le_bytes())
        .collect();
    written(Kind::Float32Dense, readings.len(), &body)
}

fn converted(blob: &Aligned, kind: Kind) -> Aligned {
    let made = theirs::convert(blob, kind.into());
    written(kind, made.dims, made.bin_data())
}

fn written(kind: Kind, dims: usize, body: &[u8]) -> Aligned {
    Aligned::new(&write(kind, dims, body).expect("a ride is within the limits"))
}
