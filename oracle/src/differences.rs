//! Every place where the rules (docs/RULES.md) differ from the Rust on purpose; nothing else is changed.

use std::borrow::Cow;
use std::hint::black_box;

use crate::rules::{self, Kind, Measure, View};

/// Limit 1: a blob, read or written, is no longer than this. The Rust has no limit.
pub const MOST_LENGTH: usize = 524_293;

/// Limit 9: a vector has no more dims than this. The Rust has no limit.
pub const MOST_DIMS: usize = 65_536;

const NAN_32: u32 = 0x7fc0_0000;
const NAN_64: u64 = 0x7ff8_0000_0000_0000;

/// Whether the strict mode accepts the indices of a sparse body. What the Rust calls unsorted it refuses;
/// of what the Rust calls sorted it refuses equal neighbours, and nothing else.
pub fn rises(sorted: bool, body: &[u8]) -> bool {
    sorted && rules::neighbours(body).all(|(before, index)| index != before)
}

/// A computed f32: every NaN has one pattern, where the Rust's has any sign and payload.
/// The value is hidden, since compilers take `x < 0 ? NaN : sqrt(x)` for a plain `sqrt(x)`.
pub fn bits_32(x: f32) -> u32 {
    match black_box(x) {
        x if x.is_nan() => NAN_32,
        x => x.to_bits(),
    }
}

/// A computed f64, likewise.
pub fn bits_64(x: f64) -> u64 {
    match black_box(x) {
        x if x.is_nan() => NAN_64,
        x => x.to_bits(),
    }
}

/// A distance: L2 at dims 0 is +0.0, where the Rust's empty sum has been -0.0 and +0.0.
pub fn distance(measure: Measure, dims: usize, answer: f64) -> f64 {
    if measure == Measure::L2 && dims == 0 && answer == 0.0 {
        0.0
    } else {
        f64::from_bits(bits_64(answer))
    }
}

/// A converted body: its NaNs are computed and have one pattern, except where values are copied.
pub fn converted(from: Kind, mut view: View) -> View {
    let copied = matches!(
        (from, view.kind),
        (Kind::Float32Dense, Kind::Float32Sparse) | (Kind::Float32Sparse, Kind::Float32Dense)
    );
    if from != view.kind && !copied {
        change_nans(view.kind, &mut view.body, |_| NAN_32, |_| NAN_64);
    }
    view
}

/// The blob that Jaccard is given: a signalling NaN counts as NaN, but on aarch64 `min` and `max`
/// answer NaN for it and do not pass it over, so elements are made quiet there.
pub fn before<'a>(measure: Measure, view: &View, blob: &'a [u8]) -> Cow<'a, [u8]> {
    if cfg!(target_arch = "aarch64") && measure == Measure::Jac {
        let mut blob = blob.to_vec();
        quieten(view.kind, &mut blob[..view.body.len()]);
        blob.into()
    } else {
        blob.into()
    }
}

fn quieten(kind: Kind, body: &mut [u8]) {
    change_nans(kind, body, |bits| bits | NAN_32, |bits| bits | NAN_64);
}

/// Changes the pattern of every NaN among a body's floats.
fn change_nans(
    kind: Kind,
    body: &mut [u8],
    change_32: impl Fn(u32) -> u32,
    change_64: impl Fn(u64) -> u64,
) {
    let singles = match kind {
        Kind::Float32Dense => &mut body[..],
        Kind::Float32Sparse => body.split_at_mut(body.len() / 2).0,
        Kind::Float8 => body.split_at_mut(body.len() - 8).1,
        Kind::Float64Dense | Kind::Float1Bit => &mut [],
    };
    for bytes in singles.as_chunks_mut().0 {
        let bits = u32::from_le_bytes(*bytes);
        if f32::from_bits(bits).is_nan() {
            *bytes = change_32(bits).to_le_bytes();
        }
    }
    if kind == Kind::Float64Dense {
        for bytes in body.as_chunks_mut().0 {
            let bits = u64::from_le_bytes(*bytes);
            if f64::from_bits(bits).is_nan() {
                *bytes = change_64(bits).to_le_bytes();
            }
        }
    }
}

#[cfg(test)]
mod tests {
    use super::*;
    use crate::{original, rules};

    /// Rows 'limit 1' and 'limit 9' of docs/DIFFERENCES.md: the shortest blobs that the Rust
    /// accepts and a limit refuses. Between limit 1 and its row's blob the Rust refuses too.
    #[test]
    fn the_rust_has_no_limits() {
        let shape = |blob: &[u8]| original::read(blob).map(|view| (view.kind, view.dims));
        let ending = |end: [u8; 2]| [vec![0; MOST_LENGTH], end.to_vec()].concat();

        assert!(original::read(&vec![0; MOST_LENGTH + 1]).is_err());
        let bits = ending([8, 3]);
        assert_eq!(bits.len(), 524_295);
        assert_eq!(shape(&bits), Ok((Kind::Float1Bit, 4_194_344)));
        assert_eq!(rules::read(&bits), Err(1.into()));
        assert_eq!(shape(&ending([0, 4])), Ok((Kind::Float8, 524_284)));

        let sparse = [1, 0, 1, 0, 9];
        assert_eq!(shape(&sparse), Ok((Kind::Float32Sparse, 65_537)));
        assert_eq!(rules::read(&sparse), Err(9.into()));
    }

    /// Row 'equal neighbours in the strict mode' of docs/DIFFERENCES.md: the Rust's test passes them.
    #[test]
    fn equal_neighbours_are_sorted_and_do_not_rise() {
        let rises = |indices: &[u32]| {
            let body = rules::sparse_body(indices);
            let blob = rules::blob(Kind::Float32Sparse, 9, &body);
            let sorted = original::indices_are_sorted(&blob).expect("is read");
            (sorted, rises(sorted, &body))
        };
        assert_eq!(rises(&[]), (true, true));
        assert_eq!(rises(&[0]), (true, true));
        assert_eq!(rises(&[0, 1, 8]), (true, true));
        assert_eq!(rises(&[0, 0]), (true, false));
        assert_eq!(rises(&[0, 1, 1]), (true, false));
        assert_eq!(rises(&[1, 0]), (false, false));
    }

    #[test]
    fn only_signalling_nans_of_the_values_become_quiet() {
        let words = [0xff80_0001_u32, 0x7f80_0000, 0x7f80_0001, 0x7fc0_0005];
        let mut body = words.map(u32::to_le_bytes).concat();
        quieten(Kind::Float32Sparse, &mut body);
        assert_eq!(body[..4], 0xffc0_0001_u32.to_le_bytes());
        assert_eq!(body[4..], words.map(u32::to_le_bytes).concat()[4..]);
    }
}
