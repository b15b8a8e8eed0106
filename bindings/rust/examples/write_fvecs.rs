//! Writes an fvecs file of three rides, `examples/lab.fvecs` of the repository: to the path that is named,
//! else to standard output.

use std::env;
use std::error::Error;
use std::fs;
use std::io::{self, Write};

use fulandewu::{append_fvecs, Refusal};

/// Heart rates, one for each ten seconds.
const RIDES: [&[f32]; 3] = [
    &[92.0, 95.0, 101.5, 118.0, 126.5, 131.0],
    &[88.0, 90.5, 97.0, 112.0, 120.0, 125.5],
    &[95.0, 99.0, 104.5, 110.0],
];

/// Appends a ride, and makes the file longer where there is no room for it.
fn append(ride: &[f32], file: &mut Vec<u8>, fill: usize) -> Result<usize, Refusal> {
    let blob: Vec<u8> = ride.iter().flat_map(|rate| rate.to_le_bytes()).collect();
    let answer = append_fvecs(&blob, file, fill);
    match answer.err().and_then(|refusal| refusal.needed()) {
        None => answer,
        Some(needed) => {
            file.resize(fill + needed, 0);
            append_fvecs(&blob, file, fill)
        }
    }
}

fn main() -> Result<(), Box<dyn Error>> {
    let (mut file, mut fill) = (Vec::new(), 0);
    for ride in RIDES {
        fill = append(ride, &mut file, fill)?;
    }
    match env::args_os().nth(1) {
        Some(path) => fs::write(path, &file[..fill])?,
        None => io::stdout().write_all(&file[..fill])?,
    }
    Ok(())
}
