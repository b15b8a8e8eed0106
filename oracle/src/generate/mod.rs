//! Requests and lines to be answered, each run named by a seed.

mod blobs;
mod files;
mod floats;
pub mod random;
mod requests;
mod rounding;
mod short;

use crate::lines::Program;
use crate::request::{Mode, Request, Vecs};
use random::Random;

/// The lines of a mode, without end except in `short`, where the seed says how many to pass over.
pub fn lines(mode: &str, seed: u64) -> Option<Box<dyn Iterator<Item = Vec<u8>>>> {
    let request: fn(&mut Random) -> Request = match mode {
        "dist" => Random::distance,
        "read" => |random| random.reading(Mode::Plain),
        "strict" => |random| random.reading(Mode::Strict),
        "write" => Random::writing,
        "conv" => Random::conversion,
        "near" => Random::nearer,
        "fvecs" => |random| random.finding(Vecs::Fvecs),
        "bvecs" => |random| random.finding(Vecs::Bvecs),
        "append" => Random::appending,
        "rounding" => return Some(Box::new(rounding::lines(Random::new(seed)))),
        "short" => return Some(Box::new(short::lines().skip(seed as usize))),
        _ => return None,
    };
    let mut random = Random::new(seed);
    Some(Box::new(std::iter::repeat_with(move || {
        let request = request(&mut random);
        let line = random.line(&request);
        let line = random.perhaps_stretched(Program::of(&request), line);
        random.perhaps_spoiled(line)
    })))
}
