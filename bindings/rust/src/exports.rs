//! The exports of libfulandewu.a and the answer that they are lent, as include/fulandewu.h has them.

/// What a call hands out: it writes the fields that its answer or its refusal has, and no other.
#[repr(C)]
#[derive(Default)]
pub struct Answer {
    pub distance: f64,
    pub kind: u64,
    pub dims: u64,
    pub length: u64,
    pub needed: u64,
    pub which: u64,
    pub nearer: u64,
    pub entry: u64,
    pub readings: u64,
    pub other_readings: u64,
    pub start: u64,
    pub next: u64,
    pub place: u64,
    pub found: u64,
    pub fill: u64,
    /// For later exports.
    #[allow(dead_code)]
    reserved: [u64; 17],
}

const _: () = assert!(std::mem::size_of::<Answer>() == 256 && std::mem::align_of::<Answer>() == 8);

pub type Measure = unsafe extern "C" fn(*const u8, usize, *const u8, usize, *mut Answer) -> u32;
pub type Chooser =
    unsafe extern "C" fn(*const u8, usize, *const u8, usize, *const u8, usize, *mut Answer) -> u32;

extern "C" {
    pub fn fulandewu_read(
        mode: u8,
        blob: *const u8,
        blob_length: usize,
        answer: *mut Answer,
    ) -> u32;
    pub fn fulandewu_write(
        kind: u8,
        dims: usize,
        body: *const u8,
        body_length: usize,
        out: *mut u8,
        out_length: usize,
        answer: *mut Answer,
    ) -> u32;
    pub fn fulandewu_convert(
        blob: *const u8,
        blob_length: usize,
        kind: u8,
        scratch: *mut u8,
        scratch_length: usize,
        out: *mut u8,
        out_length: usize,
        answer: *mut Answer,
    ) -> u32;
    pub fn fulandewu_distance_cos(
        first: *const u8,
        first_length: usize,
        second: *const u8,
        second_length: usize,
        answer: *mut Answer,
    ) -> u32;
    pub fn fulandewu_distance_l2(
        first: *const u8,
        first_length: usize,
        second: *const u8,
        second_length: usize,
        answer: *mut Answer,
    ) -> u32;
    pub fn fulandewu_distance_dot(
        first: *const u8,
        first_length: usize,
        second: *const u8,
        second_length: usize,
        answer: *mut Answer,
    ) -> u32;
    pub fn fulandewu_distance_jaccard(
        first: *const u8,
        first_length: usize,
        second: *const u8,
        second_length: usize,
        answer: *mut Answer,
    ) -> u32;
    pub fn fulandewu_nearer_cos(
        probe: *const u8,
        probe_length: usize,
        first: *const u8,
        first_length: usize,
        second: *const u8,
        second_length: usize,
        answer: *mut Answer,
    ) -> u32;
    pub fn fulandewu_nearer_l2(
        probe: *const u8,
        probe_length: usize,
        first: *const u8,
        first_length: usize,
        second: *const u8,
        second_length: usize,
        answer: *mut Answer,
    ) -> u32;
    pub fn fulandewu_nearer_dot(
        probe: *const u8,
        probe_length: usize,
        first: *const u8,
        first_length: usize,
        second: *const u8,
        second_length: usize,
        answer: *mut Answer,
    ) -> u32;
    pub fn fulandewu_nearer_jaccard(
        probe: *const u8,
        probe_length: usize,
        first: *const u8,
        first_length: usize,
        second: *const u8,
        second_length: usize,
        answer: *mut Answer,
    ) -> u32;
    pub fn fulandewu_fvecs_read(
        file: *const u8,
        file_length: usize,
        place: usize,
        answer: *mut Answer,
    ) -> u32;
    pub fn fulandewu_bvecs_read(
        file: *const u8,
        file_length: usize,
        place: usize,
        out: *mut u8,
        out_length: usize,
        answer: *mut Answer,
    ) -> u32;
    pub fn fulandewu_fvecs_append(
        blob: *const u8,
        blob_length: usize,
        out: *mut u8,
        out_length: usize,
        fill: usize,
        answer: *mut Answer,
    ) -> u32;
}

#[cfg(test)]
mod tests {
    use super::*;
    use std::ptr::null_mut;

    /// Calls with an answer whose counts hold other numbers, and fails unless they still do after this
    /// refusal.
    fn expect_no_count(refusal: u32, call: impl FnOnce(*mut Answer) -> u32) {
        let mut answer = Answer {
            readings: 77,
            other_readings: 88,
            ..Answer::default()
        };
        assert_eq!(call(&mut answer), refusal);
        assert_eq!((answer.readings, answer.other_readings), (77, 88));
    }

    #[test]
    fn a_refusal_writes_no_count() {
        // a sparse ride of two readings in one place, and one of none in two
        let two = [
            0, 0, 0x80, 0x3f, 0, 0, 0x80, 0x3f, 0, 0, 0, 0, 0, 0, 0, 0, 1, 0, 0, 0, 9,
        ];
        let none = [2, 0, 0, 0, 9];
        let ((t, n), (m, k)) = ((two.as_ptr(), two.len()), (none.as_ptr(), none.len()));
        // SAFETY: each pair is that of a slice or empty, and the answer is a local of its own.
        unsafe {
            expect_no_count(10, |a| fulandewu_read(1, t, n, a));
            expect_no_count(15, |a| {
                fulandewu_convert(t, n, 1, null_mut(), 0, null_mut(), 0, a)
            });
            expect_no_count(17, |a| {
                fulandewu_convert(t, n, 3, null_mut(), 0, null_mut(), 0, a)
            });
            expect_no_count(12, |a| fulandewu_distance_cos(t, n, m, k, a));
            expect_no_count(18, |a| fulandewu_nearer_cos(m, k, m, k, m, k, a));
        }
    }
}
