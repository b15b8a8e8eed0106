//! Every function on good and on refused input; what a refusal carries; what it leaves.

mod common;

use common::{DISTANCES, KINDS};
use fulandewu::{
    append_fvecs, convert, distance, nearer, read, write, Candidate, Distance, Measured, Mode,
    Reason, Refusal, VectorType, Which, LONGEST, MOST_DIMS,
};

/// Of each kind a blob of two dims; the dense ones are 60, 80.
const BLOBS: [&[u8]; 5] = [
    &[0, 0, 0x70, 0x42, 0, 0, 0xa0, 0x42],
    &[
        0, 0, 0, 0, 0, 0, 0x4e, 0x40, 0, 0, 0, 0, 0, 0, 0x54, 0x40, 2,
    ],
    &[0x03, 0x0e, 3],
    &[1, 2, 0, 0, 0, 0, 0x80, 0x3f, 0, 0, 0, 0, 0, 2, 4],
    &[
        0, 0, 0x70, 0x42, 0, 0, 0xa0, 0x42, 0, 0, 0, 0, 1, 0, 0, 0, 2, 0, 0, 0, 9,
    ],
];

/// A blob that each of the reader's numbers refuses, from 2 on; in that of 8, entry 1 is wrong.
const REFUSED: [&[u8]; 8] = [
    &[5],
    &[7],
    &[3],
    &[0xaa, 0x11, 3],
    &[0xaa, 0x07, 3],
    &[0xaa, 0x10, 3],
    &[
        0, 0, 0x80, 0x3f, 0, 0, 0x80, 0x3f, 1, 0, 0, 0, 5, 0, 0, 0, 2, 0, 0, 0, 9,
    ],
    &[1, 0, 1, 0, 9],
];

/// The number of a refusal, the entry or the need that it carries, and the blob that it is about.
fn told(refusal: Refusal) -> (u32, Option<usize>, Option<Which>) {
    let carried = refusal.entry().or_else(|| refusal.needed());
    (refusal.number(), carried, refusal.which())
}

#[test]
fn each_kind_is_read_in_both_modes() {
    for (kind, blob) in KINDS.iter().zip(BLOBS) {
        let view = read(Mode::Plain, blob).unwrap();
        assert_eq!((view.kind(), view.dims(), view.readings()), (*kind, 2, 2));
        assert_eq!(view.body(), &blob[..view.body().len()]);
        assert_eq!(view.body().as_ptr(), blob.as_ptr());
        assert_eq!(read(Mode::Strict, blob), Ok(view));
        assert_eq!(view.values().is_some(), *kind == VectorType::Float32Sparse);
        assert_eq!(VectorType::named(kind.byte()), Some(*kind));
    }
    let sparse = read(Mode::Plain, BLOBS[4]).unwrap();
    assert_eq!(sparse.values(), Some(&BLOBS[4][..8]));
    assert_eq!(sparse.indices(), Some(&BLOBS[4][8..16]));
}

#[test]
fn the_readers_refusals_name_the_blob() {
    let (good, long) = (BLOBS[0], vec![0; LONGEST + 1]);
    for (number, bad) in (1..).zip(std::iter::once(&long[..]).chain(REFUSED)) {
        let entry = if number == 8 { Some(1) } else { None };
        for mode in [Mode::Plain, Mode::Strict] {
            assert_eq!(told(read(mode, bad).unwrap_err()), (number, entry, None));
        }
        let converted = convert(bad, VectorType::Float8, &mut [], &mut []);
        assert_eq!(told(converted.unwrap_err()), (number, entry, None));
        let appended = append_fvecs(bad, &mut [], 0);
        assert_eq!(told(appended.unwrap_err()), (number, entry, None));
        for d in DISTANCES {
            assert_eq!(
                told(distance(d, bad, good).unwrap_err()),
                (number, entry, Some(Which::First))
            );
            assert_eq!(
                told(distance(d, good, bad).unwrap_err()),
                (number, entry, Some(Which::Second))
            );
            assert_eq!(
                told(nearer(d, bad, good, good).unwrap_err()),
                (number, entry, Some(Which::Probe))
            );
            assert_eq!(
                told(nearer(d, good, bad, good).unwrap_err()),
                (number, entry, Some(Which::First))
            );
            assert_eq!(
                told(nearer(d, good, good, bad).unwrap_err()),
                (number, entry, Some(Which::Second))
            );
        }
    }
}

#[test]
fn the_strict_mode_tests_order_and_unused_bits() {
    for second in 0..=1 {
        let mut repeating_or_falling = [
            0, 0, 0, 0, 0, 0, 0, 0, 1, 0, 0, 0, 0, 0, 0, 0, 2, 0, 0, 0, 9,
        ];
        repeating_or_falling[12] = second;
        assert!(read(Mode::Plain, &repeating_or_falling).is_ok());
        let refusal = read(Mode::Strict, &repeating_or_falling).unwrap_err();
        assert_eq!(
            (refusal.reason(), refusal.entry()),
            (Reason::SparseOrder, Some(1))
        );
        assert_eq!(
            refusal.to_string(),
            "refusal 10: a sparse index is not above the one before it, at entry 1"
        );
    }
    let in_place_0 = [0, 0, 0, 0, 0, 0, 0, 0, 1, 0, 0, 0, 9];
    assert!(read(Mode::Strict, &in_place_0).is_ok());
    assert_eq!(
        read(Mode::Strict, &[0xff, 0x09, 3]).unwrap_err().reason(),
        Reason::UnusedBitSet
    );
}

#[test]
fn what_is_written_reads_back() {
    for (kind, blob) in KINDS.iter().zip(BLOBS) {
        let view = read(Mode::Plain, blob).unwrap();
        let short = write(*kind, view.dims(), view.body(), &mut []).unwrap_err();
        let needed = short.needed().unwrap();
        assert_eq!(short.reason(), Reason::OutputTooShort);
        let mut out = vec![0x5a; needed + 3];
        assert_eq!(
            write(*kind, view.dims(), view.body(), &mut out[..needed - 1]),
            Err(short)
        );
        assert!(out.iter().all(|byte| *byte == 0x5a));
        assert_eq!(write(*kind, view.dims(), view.body(), &mut out), Ok(needed));
        assert_eq!(read(Mode::Plain, &out[..needed]), Ok(view));
        assert_eq!(out[needed..], [0x5a; 3]);
    }
}

#[test]
fn the_writers_refusals() {
    let refused =
        |kind, dims, body: &[u8]| write(kind, dims, body, &mut [0; 64]).unwrap_err().number();
    assert_eq!(refused(VectorType::Float32Dense, MOST_DIMS + 1, &[]), 9);
    assert_eq!(refused(VectorType::Float32Dense, usize::MAX, &[]), 9);
    assert_eq!(refused(VectorType::Float64Dense, 1, &[0; 4]), 7);
    assert_eq!(
        refused(VectorType::Float32Sparse, 0, &vec![0; 8 * 65_537]),
        1
    );
    let outside = write(
        VectorType::Float32Sparse,
        2,
        &REFUSED[6][..16],
        &mut [0; 64],
    );
    assert_eq!(told(outside.unwrap_err()), (8, Some(1), None));
    assert_eq!(refused(VectorType::Float1Bit, 0, &[]), 16);
    assert_eq!(refused(VectorType::Float8, 0, &[0; 8]), 16);
}

#[test]
fn all_pairs_are_converted() {
    for (source, blob) in KINDS.iter().zip(BLOBS) {
        for target in KINDS {
            let (mut scratch, mut out) = ([0x5a; 8], [0x5a; 40]);
            let view = convert(blob, target, &mut scratch, &mut out).unwrap();
            assert_eq!((view.kind(), view.dims(), view.readings()), (target, 2, 2));
            let length = view.body().len();
            assert!(out[length..].iter().all(|byte| *byte == 0x5a));
            let packed = matches!(target, VectorType::Float1Bit | VectorType::Float8);
            let used = *source == VectorType::Float32Sparse && packed;
            assert_eq!(scratch[..], *if used { BLOBS[0] } else { &[0x5a; 8] });
            let mut short = vec![0x5a; length - 1];
            let refusal = convert(blob, target, &mut scratch, &mut short).unwrap_err();
            assert_eq!(told(refusal), (15, Some(length), None));
            assert!(short.iter().all(|byte| *byte == 0x5a));
        }
    }
    let refusal = convert(BLOBS[4], VectorType::Float8, &mut [0; 7], &mut []).unwrap_err();
    assert_eq!(told(refusal), (17, Some(8), None));
}

#[test]
fn distances_and_their_refusals() {
    for (kind, blob) in KINDS.iter().zip(BLOBS) {
        for d in DISTANCES {
            let one_bit_l2 = *kind == VectorType::Float1Bit && d == Distance::L2;
            assert_eq!(
                distance(d, blob, blob).map_err(|r| r.number()).err(),
                one_bit_l2.then(|| 14)
            );
            assert_eq!(
                distance(d, blob, &[]).unwrap_err().reason(),
                Reason::DimsDiffer
            );
        }
    }
    let kinds = distance(Distance::Dot, BLOBS[0], BLOBS[1]).unwrap_err();
    assert_eq!(told(kinds), (13, None, None));
    let (right, up) = (
        [0, 0, 0x40, 0x40, 0, 0, 0, 0],
        [0, 0, 0, 0, 0, 0, 0x80, 0x40],
    );
    let apart = distance(Distance::L2, &right, &up).unwrap();
    assert_eq!(
        apart,
        Measured {
            distance: 5.0,
            readings: 2,
            other_readings: 2
        }
    );
    let orthogonal = distance(Distance::Dot, &right, &up).unwrap();
    assert_eq!(orthogonal.distance.to_bits(), (-0.0f64).to_bits());
}

#[test]
fn the_nearer_of_two() {
    let (probe, far, none) = (
        BLOBS[4],
        [1, 0, 0, 0, 0, 0, 0, 0, 2, 0, 0, 0, 9],
        [2, 0, 0, 0, 9],
    );
    for d in DISTANCES {
        let found = nearer(d, probe, &far, probe).unwrap();
        assert_eq!(found.candidate, Candidate::Second);
        assert_eq!(found.distance, distance(d, probe, probe).unwrap().distance);
        assert_eq!(
            nearer(d, probe, probe, probe).unwrap().candidate,
            Candidate::First
        );
    }
    // NaN loses to all else, and two of them are refused
    assert_eq!(
        nearer(Distance::Cos, probe, &none, probe)
            .unwrap()
            .candidate,
        Candidate::Second
    );
    assert_eq!(
        nearer(Distance::Cos, probe, &none, &none)
            .unwrap_err()
            .reason(),
        Reason::BothDistancesNan
    );
    assert_eq!(
        told(nearer(Distance::L2, BLOBS[2], BLOBS[2], BLOBS[2]).unwrap_err()),
        (14, None, None)
    );
}

#[test]
fn nothing_asks_for_alignment() {
    let mut room = [0; 32];
    for start in 0..8 {
        let (blob, at) = (BLOBS[1], start..start + BLOBS[1].len());
        room[at.clone()].copy_from_slice(blob);
        let measured = distance(Distance::L2, &room[at], blob).unwrap();
        assert_eq!(measured.distance, 0.0);
    }
}

#[test]
fn a_refusal_says_itself() {
    let short = write(VectorType::Float1Bit, 8, &[0xaa], &mut []).unwrap_err();
    assert_eq!(
        short.to_string(),
        "refusal 15: the output buffer is too short, 3 bytes are needed"
    );
    let second = distance(Distance::Cos, &[], &[5]).unwrap_err();
    assert_eq!(
        second.to_string(),
        "refusal 2: the type byte is 5 or 6 (the second blob)"
    );
    let outside = distance(Distance::Cos, REFUSED[6], &[]).unwrap_err();
    assert_eq!(
        outside.to_string(),
        "refusal 8: a sparse index is not below dims, at entry 1 (the first blob)"
    );
}
