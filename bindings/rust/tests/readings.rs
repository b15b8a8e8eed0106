//! How many readings there are: of one blob, of a converted one, of a pair, of the nearer of two.

mod common;

use common::{DISTANCES, KINDS};
use fulandewu::{
    convert, distance, nearer, read, Candidate, Distance, Mode, Reason, VectorType, MOST_DIMS,
};

/// Sparse vectors of three dims: `HOLDING[n]` holds n readings. These are 160; 60 and 80; 60, a stored 0
/// and 80.
const HOLDING: [&[u8]; 4] = [
    &[3, 0, 0, 0, 9],
    &[0, 0, 0x20, 0x43, 1, 0, 0, 0, 3, 0, 0, 0, 9],
    &[
        0, 0, 0x70, 0x42, 0, 0, 0xa0, 0x42, 0, 0, 0, 0, 2, 0, 0, 0, 3, 0, 0, 0, 9,
    ],
    &[
        0, 0, 0x70, 0x42, 0, 0, 0, 0, 0, 0, 0xa0, 0x42, 0, 0, 0, 0, 1, 0, 0, 0, 2, 0, 0, 0, 3, 0,
        0, 0, 9,
    ],
];

/// Of one dim: no reading, and two, which are more than dims.
const NONE_OF_1: &[u8] = &[1, 0, 0, 0, 9];
const TWICE: &[u8] = &[
    0, 0, 0x80, 0x3f, 0, 0, 0x80, 0x3f, 0, 0, 0, 0, 0, 0, 0, 0, 1, 0, 0, 0, 9,
];

#[test]
fn a_sparse_vector_counts_its_entries() {
    for (readings, blob) in HOLDING.iter().enumerate() {
        for mode in [Mode::Plain, Mode::Strict] {
            let view = read(mode, blob).unwrap();
            assert_eq!((view.dims(), view.readings()), (3, readings));
        }
    }
    let view = read(Mode::Plain, TWICE).unwrap();
    assert_eq!((view.dims(), view.readings()), (1, 2));
    let mut most = vec![0; 8 * MOST_DIMS];
    most.extend_from_slice(NONE_OF_1);
    assert_eq!(read(Mode::Plain, &most).unwrap().readings(), MOST_DIMS);
}

#[test]
fn a_conversion_counts_the_new_vector() {
    // 60, 0 and 80 as f32; -0 and the least f64, which stays, as a stored 0; 0 and 2 as Float8
    let gappy = [0, 0, 0x70, 0x42, 0, 0, 0, 0, 0, 0, 0xa0, 0x42];
    let doubles = [0, 0, 0, 0, 0, 0, 0, 0x80, 1, 0, 0, 0, 0, 0, 0, 0, 2];
    let float8 = [0, 2, 0, 0, 0, 0, 0x80, 0x3f, 0, 0, 0, 0, 0, 2, 4];
    let others: [(&[u8], usize); 6] = [
        (&gappy, 2),
        (&doubles, 1),
        (&float8, 1),
        (&[0x03, 0x0e, 3], 2),
        (&[], 0),
        (TWICE, 2),
    ];
    let sparse = HOLDING.iter().copied().zip(0..);
    for (blob, made_sparse) in sparse.chain(others) {
        let dims = read(Mode::Plain, blob).unwrap().dims();
        for kind in KINDS {
            let (mut scratch, mut out) = ([0; 12], [0; 24]);
            let view = convert(blob, kind, &mut scratch, &mut out).unwrap();
            let readings = match kind {
                VectorType::Float32Sparse => made_sparse,
                _ => dims,
            };
            assert_eq!((view.dims(), view.readings()), (dims, readings));
        }
    }
}

#[test]
fn a_pair_has_two_counts() {
    let counts = |asked, first, second| {
        let measured = distance(asked, first, second).unwrap();
        (measured.readings, measured.other_readings)
    };
    for d in DISTANCES {
        for (n, first) in HOLDING.iter().enumerate() {
            for (m, second) in HOLDING.iter().enumerate() {
                assert_eq!(counts(d, first, second), (n, m));
                let bits = |a, b| distance(d, a, b).unwrap().distance.to_bits();
                assert_eq!(bits(first, second), bits(second, first));
            }
        }
        assert_eq!(counts(d, TWICE, NONE_OF_1), (2, 0));
        assert_eq!(counts(d, NONE_OF_1, TWICE), (0, 2));
    }
    let dense = [0, 0, 0x70, 0x42, 0, 0, 0, 0];
    assert_eq!(counts(Distance::Dot, &dense, &dense), (2, 2));
}

/// The candidates in either order: the nearer one wins, with its own readings.
fn expect_nearer(asked: Distance, probe: &[u8], near: &[u8], far: &[u8], readings: usize) {
    let first = nearer(asked, probe, near, far).unwrap();
    assert_eq!(
        (first.candidate, first.readings),
        (Candidate::First, readings)
    );
    let second = nearer(asked, probe, far, near).unwrap();
    assert_eq!(
        (second.candidate, second.readings),
        (Candidate::Second, readings)
    );
}

#[test]
fn the_nearer_counts_its_own() {
    for d in DISTANCES {
        expect_nearer(d, HOLDING[2], HOLDING[3], HOLDING[1], 3);
        expect_nearer(d, HOLDING[3], HOLDING[2], HOLDING[1], 2);
        expect_nearer(d, TWICE, TWICE, NONE_OF_1, 2);
    }
    expect_nearer(Distance::L2, HOLDING[1], HOLDING[0], HOLDING[2], 0);
    expect_nearer(Distance::L2, HOLDING[0], HOLDING[2], HOLDING[1], 2);
}

#[test]
fn what_is_counted_may_be_refused() {
    let refusal = read(Mode::Strict, TWICE).unwrap_err();
    assert_eq!(refusal.reason(), Reason::SparseOrder);
    let refusal = distance(Distance::L2, HOLDING[2], TWICE).unwrap_err();
    assert_eq!(refusal.reason(), Reason::DimsDiffer);
    let refusal = nearer(Distance::Cos, HOLDING[0], HOLDING[2], HOLDING[3]).unwrap_err();
    assert_eq!(refusal.reason(), Reason::BothDistancesNan);
}
