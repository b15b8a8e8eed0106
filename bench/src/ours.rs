//! Our side: the exports of the archive, `crates/fulandewu`, which start from blobs.

use std::mem::MaybeUninit;

use crate::rules::{Kind, Measure};

/// The answer that a call is lent, as include/fulandewu.h has it. It is only written.
#[repr(C)]
#[allow(dead_code)]
pub struct Answer {
    distance: f64,
    kind: u64,
    dims: u64,
    length: u64,
    others: [u64; 10],
    fill: u64,
    reserved: [u64; 17],
}

pub type Function = unsafe extern "C" fn(*const u8, usize, *const u8, usize, *mut Answer) -> u32;

#[link(name = "fulandewu", kind = "static")]
extern "C" {
    fn fulandewu_distance_cos(
        first: *const u8,
        first_len: usize,
        second: *const u8,
        second_len: usize,
        answer: *mut Answer,
    ) -> u32;
    fn fulandewu_distance_l2(
        first: *const u8,
        first_len: usize,
        second: *const u8,
        second_len: usize,
        answer: *mut Answer,
    ) -> u32;
    fn fulandewu_distance_dot(
        first: *const u8,
        first_len: usize,
        second: *const u8,
        second_len: usize,
        answer: *mut Answer,
    ) -> u32;
    fn fulandewu_distance_jaccard(
        first: *const u8,
        first_len: usize,
        second: *const u8,
        second_len: usize,
        answer: *mut Answer,
    ) -> u32;
    fn fulandewu_convert(
        blob: *const u8,
        blob_len: usize,
        kind: u8,
        scratch: *mut u8,
        scratch_len: usize,
        out: *mut u8,
        out_len: usize,
        answer: *mut Answer,
    ) -> u32;
    fn fulandewu_bvecs_read(
        file: *const u8,
        file_len: usize,
        place: usize,
        out: *mut u8,
        out_len: usize,
        answer: *mut Answer,
    ) -> u32;
    fn fulandewu_fvecs_append(
        blob: *const u8,
        blob_len: usize,
        out: *mut u8,
        out_len: usize,
        fill: usize,
        answer: *mut Answer,
    ) -> u32;
}

pub fn function(measure: Measure) -> Function {
    match measure {
        Measure::Cos => fulandewu_distance_cos,
        Measure::L2 => fulandewu_distance_l2,
        Measure::Dot => fulandewu_distance_dot,
        Measure::Jac => fulandewu_distance_jaccard,
    }
}

/// A distance, or the number of the refusal.
pub fn distance(function: Function, first: &[u8], second: &[u8]) -> Result<f64, u32> {
    let mut answer = MaybeUninit::<Answer>::uninit();
    // SAFETY: each pair is a slice, and the answer is this function's own.
    let number = unsafe {
        function(
            first.as_ptr(),
            first.len(),
            second.as_ptr(),
            second.len(),
            answer.as_mut_ptr(),
        )
    };
    if number == 0 {
        // SAFETY: an answer has its distance written.
        Ok(unsafe { (*answer.as_ptr()).distance })
    } else {
        Err(number)
    }
}

/// What a conversion is lent: room for the dense f32 body, and for the greatest result.
pub struct Room {
    scratch: Vec<u8>,
    out: Vec<u8>,
}

impl Room {
    pub fn new(dims: usize) -> Self {
        Self {
            scratch: vec![0; 4 * dims],
            out: vec![0; 8 * dims + 8],
        }
    }
}

/// The dims and the body of a conversion's result, or the number of the refusal.
pub fn convert<'a>(
    blob: &[u8],
    target: Kind,
    room: &'a mut Room,
) -> Result<(usize, &'a [u8]), u32> {
    let Room { scratch, out } = room;
    let mut answer = MaybeUninit::<Answer>::uninit();
    // SAFETY: each pair is a slice, no two overlap, and the answer is this function's own.
    let number = unsafe {
        fulandewu_convert(
            blob.as_ptr(),
            blob.len(),
            target as u8,
            scratch.as_mut_ptr(),
            scratch.len(),
            out.as_mut_ptr(),
            out.len(),
            answer.as_mut_ptr(),
        )
    };
    if number == 0 {
        // SAFETY: an answer has its dims and its length written.
        let (dims, length) = unsafe { ((*answer.as_ptr()).dims, (*answer.as_ptr()).length) };
        Ok((dims as usize, &out[..length as usize]))
    } else {
        Err(number)
    }
}

/// The dims of the first vector of a bvecs file, whose bytes are put as floats, or the number of the refusal.
pub fn widen(file: &[u8], out: &mut [u8]) -> Result<usize, u32> {
    let mut answer = MaybeUninit::<Answer>::uninit();
    // SAFETY: each pair is a slice, the two do not overlap, and the answer is this function's own.
    let number = unsafe {
        fulandewu_bvecs_read(
            file.as_ptr(),
            file.len(),
            0,
            out.as_mut_ptr(),
            out.len(),
            answer.as_mut_ptr(),
        )
    };
    if number == 0 {
        // SAFETY: a vector has its dims written, and the file has one.
        Ok(unsafe { (*answer.as_ptr()).dims } as usize)
    } else {
        Err(number)
    }
}

/// The fill after a blob is appended to an empty file, or the number of the refusal.
pub fn append(blob: &[u8], out: &mut [u8]) -> Result<usize, u32> {
    let mut answer = MaybeUninit::<Answer>::uninit();
    // SAFETY: each pair is a slice, the two do not overlap, and the answer is this function's own.
    let number = unsafe {
        fulandewu_fvecs_append(
            blob.as_ptr(),
            blob.len(),
            out.as_mut_ptr(),
            out.len(),
            0,
            answer.as_mut_ptr(),
        )
    };
    if number == 0 {
        // SAFETY: an answer has its fill written.
        Ok(unsafe { (*answer.as_ptr()).fill } as usize)
    } else {
        Err(number)
    }
}
