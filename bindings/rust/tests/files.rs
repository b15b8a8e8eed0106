//! Files of vectors: what stands at a place, whole files, blobs appended and read back.

use fulandewu::{
    append_fvecs, bvecs, bvecs_at, fvecs, fvecs_at, read, Mode, Reason, Refusal, VectorType,
    LONGEST,
};

/// Four rides, 60 with 80, none, 120 and 255, and where their vectors start.
const FVECS: [u8; 32] = [
    2, 0, 0, 0, 0, 0, 0x70, 0x42, 0, 0, 0xa0, 0x42, 0, 0, 0, 0, 1, 0, 0, 0, 0, 0, 0xf0, 0x42, 1, 0,
    0, 0, 0, 0, 0x7f, 0x43,
];
const FVECS_PLACES: [usize; 5] = [0, 12, 16, 24, 32];
const BVECS: [u8; 20] = [
    2, 0, 0, 0, 60, 80, 0, 0, 0, 0, 1, 0, 0, 0, 120, 1, 0, 0, 0, 255,
];
const BVECS_PLACES: [usize; 5] = [0, 6, 10, 15, 20];
const DIMS: [usize; 4] = [2, 0, 1, 1];

fn told(refusal: Refusal) -> (u32, Option<usize>, Option<usize>) {
    (refusal.number(), refusal.needed(), refusal.place())
}

/// The elements of a vector of the file above.
fn elements(vector: usize) -> &'static [u8] {
    &FVECS[FVECS_PLACES[vector] + 4..FVECS_PLACES[vector + 1]]
}

#[test]
fn a_file_is_walked() {
    let rides: Vec<_> = fvecs(&FVECS).map(|ride| ride.unwrap()).collect();
    assert_eq!(rides.len(), 4);
    for (v, ride) in rides.iter().enumerate() {
        assert_eq!(
            (ride.kind(), ride.dims(), ride.readings()),
            (VectorType::Float32Dense, DIMS[v], DIMS[v])
        );
        assert_eq!(ride.body(), elements(v));
        assert_eq!(
            ride.body().as_ptr(),
            FVECS[FVECS_PLACES[v] + 4..].as_ptr(),
            "nothing is copied"
        );
    }
    let (mut rides, mut out, mut v) = (bvecs(&BVECS), [0x5a; 9], 0);
    while let Some(ride) = rides.next_into(&mut out) {
        let ride = ride.unwrap();
        assert_eq!((ride.dims(), ride.readings()), (DIMS[v], DIMS[v]));
        assert_eq!(ride.body(), elements(v));
        assert_eq!(out[8], 0x5a);
        v += 1;
    }
    assert_eq!(v, 4);
}

#[test]
fn a_cut_file_shows_what_stands_before() {
    for length in 0..=FVECS.len() {
        let whole = FVECS_PLACES[1..].iter().filter(|&&next| next <= length);
        let (whole, mut rides) = (whole.count(), fvecs(&FVECS[..length]));
        for v in 0..whole {
            assert_eq!(rides.next().unwrap().unwrap().body(), elements(v));
        }
        let place = FVECS_PLACES[whole];
        let last = rides.next().map(|ride| told(ride.unwrap_err()));
        let cut = if place < length {
            Some((19, None, Some(place)))
        } else {
            None
        };
        assert_eq!(last, cut);
        assert_eq!((rides.next(), rides.next()), (None, None));
    }
    for length in 0..=BVECS.len() {
        let whole = BVECS_PLACES[1..].iter().filter(|&&next| next <= length);
        let (whole, mut rides, mut out) = (whole.count(), bvecs(&BVECS[..length]), [0; 8]);
        for v in 0..whole {
            assert_eq!(
                rides.next_into(&mut out).unwrap().unwrap().body(),
                elements(v)
            );
        }
        let place = BVECS_PLACES[whole];
        if place < length {
            let refusal = rides.next_into(&mut out).unwrap().unwrap_err();
            assert_eq!(told(refusal), (19, None, Some(place)));
        }
        assert_eq!(rides.next_into(&mut out), None);
    }
}

#[test]
fn the_end_is_no_refusal() {
    for place in [0, 1, 9, usize::MAX - 3, usize::MAX] {
        assert_eq!(fvecs_at(&[], place), Ok(None));
        assert_eq!(bvecs_at(&[], place, &mut []), Ok(None));
    }
    for past in [0, 1, 1000, usize::MAX - FVECS.len()] {
        assert_eq!(fvecs_at(&FVECS, FVECS.len() + past), Ok(None));
        assert_eq!(bvecs_at(&BVECS, BVECS.len() + past, &mut []), Ok(None));
    }
    assert_eq!(fvecs(&[]).next(), None);
}

#[test]
fn counts_over_the_limit() {
    for count in [65_537u32, 0x8000_0000, 0xffff_ffff] {
        let mut file = vec![0; 4];
        file.extend(count.to_le_bytes());
        for after in [0, 5] {
            file.extend(vec![9; after]);
            let refusals = [
                fvecs_at(&file, 4).unwrap_err(),
                bvecs_at(&file, 4, &mut []).unwrap_err(),
            ];
            assert_eq!(refusals.map(told), [(9, None, None); 2]);
            assert_eq!(fvecs(&file).count(), 2);
        }
    }
    let most = 65_536u32.to_le_bytes();
    assert_eq!(told(fvecs_at(&most, 0).unwrap_err()), (19, None, Some(0)));
    // a place inside a vector is taken as given
    assert_eq!(
        fvecs_at(&FVECS, 4).unwrap_err().reason(),
        Reason::DimsOverLimit
    );
}

#[test]
fn each_byte_is_the_float_of_its_number() {
    let mut file = vec![0, 1, 0, 0];
    file.extend(0..=255u8);
    let floats: Vec<u8> = (0..=255u8)
        .flat_map(|byte| f32::from(byte).to_le_bytes())
        .collect();
    let mut out = [0x5a; 1030];
    let found = bvecs_at(&file, 0, &mut out).unwrap().unwrap();
    assert_eq!((found.view.dims(), found.next), (256, 260));
    assert_eq!(found.view.body(), floats);
    assert_eq!(out[1024..], [0x5a; 6]);
}

#[test]
fn a_short_buffer_can_be_made_longer() {
    let (mut rides, mut out) = (bvecs(&BVECS), vec![0x5a; 7]);
    let refusal = rides.next_into(&mut out).unwrap().unwrap_err();
    assert_eq!(told(refusal), (15, Some(8), None));
    assert!(out.iter().all(|byte| *byte == 0x5a));
    out.resize(8, 0);
    assert_eq!(
        rides.next_into(&mut out).unwrap().unwrap().body(),
        elements(0)
    );
    // the last refusal of all
    assert_eq!(
        told(bvecs_at(&BVECS[..5], 0, &mut []).unwrap_err()),
        (19, None, Some(0))
    );
}

#[test]
fn what_is_appended() {
    let typed = [0, 0, 0x70, 0x42, 0, 0, 0xa0, 0x42, 1];
    for blob in [&typed[..8], &typed[..]] {
        for fill in 0..=8 {
            let mut out = [0x5a; 20];
            assert_eq!(append_fvecs(blob, &mut out, fill), Ok(fill + 12));
            assert_eq!(out[fill..fill + 12], FVECS[..12]);
            assert!(out[..fill].iter().all(|byte| *byte == 0x5a));
            assert!(out[fill + 12..].iter().all(|byte| *byte == 0x5a));
        }
        for fill in [9, 20, 21, 1000, usize::MAX - 11, usize::MAX] {
            let mut out = [0x5a; 20];
            let refusal = append_fvecs(blob, &mut out, fill).unwrap_err();
            assert_eq!(told(refusal), (15, Some(12), None));
            assert_eq!(out, [0x5a; 20]);
        }
    }
    let mut out = [0x5a; 4];
    assert_eq!(append_fvecs(&[], &mut out, 0), Ok(4));
    assert_eq!(out, [0; 4]);
    assert_eq!(
        told(append_fvecs(&[], &mut [], 0).unwrap_err()),
        (15, Some(4), None)
    );
}

#[test]
fn what_is_not_appended() {
    let long = vec![0; LONGEST + 1];
    let refused: [&[u8]; 9] = [
        &long,
        &[5],
        &[7],
        &[3],
        &[0xaa, 0x11, 3],
        &[0xaa, 0x07, 3],
        &[0xaa, 0x10, 3],
        &[0, 0, 0x80, 0x3f, 2, 0, 0, 0, 2, 0, 0, 0, 9],
        &[1, 0, 1, 0, 9],
    ];
    let others: [&[u8]; 4] = [
        &[2],
        &[0x03, 0x0e, 3],
        &[1, 2, 0, 0, 0, 0, 0x80, 0x3f, 0, 0, 0, 0, 0, 2, 4],
        &[2, 0, 0, 0, 9],
    ];
    let mut out = [0x5a; 64];
    for fill in [0, 64, usize::MAX] {
        for (number, blob) in (1..).zip(refused) {
            let refusal = append_fvecs(blob, &mut out, fill).unwrap_err();
            assert_eq!(told(refusal), (number, None, None));
        }
        for blob in others {
            let refusal = append_fvecs(blob, &mut out, fill).unwrap_err();
            assert_eq!(refusal.reason(), Reason::KindsDiffer);
        }
    }
    assert!(out.iter().all(|byte| *byte == 0x5a));
}

/// Numbers that look random, the same in each run.
struct Numbers(u64);

impl Numbers {
    fn below(&mut self, limit: u64) -> u64 {
        self.0 ^= self.0 << 13;
        self.0 ^= self.0 >> 7;
        self.0 ^= self.0 << 17;
        (self.0 >> 16) % limit
    }

    /// A blob of up to 64 bytes; where it has a type byte that is mostly one that names a kind.
    fn blob(&mut self) -> Vec<u8> {
        let length = self.below(65);
        let mut blob: Vec<u8> = (0..length).map(|_| self.below(256) as u8).collect();
        if length % 2 == 1 {
            *blob.last_mut().unwrap() = [1, 1, 1, 1, 2, 3, 9, 7][self.below(8) as usize];
        }
        blob
    }
}

#[test]
fn ten_thousand_blobs_read_back() {
    let (mut numbers, mut bodies) = (Numbers(0x9e37_79b9_7f4a_7c15), Vec::new());
    let (mut file, mut fill) = (vec![0x5a; 1_000_000], 0);
    while bodies.len() < 10_000 {
        let blob = numbers.blob();
        let answer = append_fvecs(&blob, &mut file, fill);
        match read(Mode::Plain, &blob) {
            Ok(view) if view.kind() == VectorType::Float32Dense => {
                fill += 4 + 4 * view.dims();
                assert_eq!(answer, Ok(fill));
                bodies.push(view.body().to_vec());
            }
            Ok(_) => assert_eq!(answer.unwrap_err().reason(), Reason::KindsDiffer),
            Err(refusal) => assert_eq!(answer, Err(refusal)),
        }
    }
    assert!(file[fill..].iter().all(|byte| *byte == 0x5a));
    let rides = fvecs(&file[..fill]).map(|ride| ride.unwrap().body().to_vec());
    assert_eq!(rides.collect::<Vec<_>>(), bodies);
}

#[test]
fn a_refusal_says_its_place() {
    let refusal = fvecs_at(&[0, 0, 0, 0, 1], 4).unwrap_err();
    assert_eq!(
        refusal.to_string(),
        "refusal 19: the file ends inside a vector, which starts at 4"
    );
}
