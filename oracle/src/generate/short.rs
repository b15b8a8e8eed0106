//! Every blob of at most three bytes, each as a `read` and a `strict` line.

use crate::hex;

/// By length, then by the last byte, so that the blobs of one type byte stand together.
pub fn lines() -> impl Iterator<Item = Vec<u8>> {
    (0..=3).flat_map(blobs).flat_map(|blob| {
        let blob = hex::encode(&blob);
        ["read", "strict"].map(|word| format!("{word}\t{blob}").into_bytes())
    })
}

fn blobs(length: usize) -> impl Iterator<Item = Vec<u8>> {
    (0..1u32 << (8 * length)).map(move |number| number.to_le_bytes()[..length].to_vec())
}
