//! Requests about files of vectors: files whole, cut and damaged, and buffers to append to.

use super::random::Random;
use crate::differences::{MOST_DIMS, MOST_LENGTH};
use crate::request::{Request, Vecs};
use crate::rules::Kind;

/// Dims of most vectors.
const FEW_DIMS: [usize; 12] = [0, 0, 1, 1, 1, 2, 2, 3, 3, 4, 5, 8];

/// How many vectors a file has.
const VECTORS: [usize; 14] = [0, 1, 1, 1, 2, 2, 2, 3, 3, 4, 4, 5, 5, 6];

/// Counts at the limit, past it, and with the highest bit set.
const COUNTS: [u32; 7] = [
    65_535,
    65_536,
    65_537,
    1 << 24,
    (1 << 31) - 1,
    1 << 31,
    u32::MAX,
];

/// Places past the end of any file, some of which are small in their lowest 32 bits.
const FAR_PLACES: [usize; 6] = [
    1 << 31,
    4_294_967_295,
    4_294_967_296,
    4_294_967_300,
    4_294_967_304,
    9_999_999_999,
];

impl Random {
    /// A place of a file, whole or damaged.
    pub fn finding(&mut self, vecs: Vecs) -> Request {
        let (mut file, starts) = self.file(vecs.width());
        let start = self.pick(&starts);
        if self.one_in(2) {
            self.damage_file(&mut file, start);
        }
        let place = match self.below(24) {
            0 => file.len(),
            1 => file.len() + self.between(1..=9),
            2 => self.pick(&FAR_PLACES),
            3 => self.below(file.len() + 1),
            4 => start + 1,
            5 => start.saturating_sub(1),
            _ => start,
        };
        Request::Find { vecs, place, file }
    }

    /// A file of at most six vectors, and where each starts, or now and then where it ends.
    fn file(&mut self, width: usize) -> (Vec<u8>, Vec<usize>) {
        let mut file = vec![];
        let mut starts = vec![];
        let at_limit = self.one_in(4_000);
        let count = if at_limit {
            self.between(1..=2)
        } else {
            self.pick(&VECTORS)
        };
        for _ in 0..count {
            starts.push(file.len());
            let dims = match self.below(64) {
                _ if at_limit => self.near(MOST_DIMS),
                0 => self.between(100..=600),
                1..=4 => self.dims(Kind::Float32Dense),
                _ => self.pick(&FEW_DIMS),
            };
            file.extend((dims as u32).to_le_bytes());
            file.extend(self.elements_of(width, dims));
        }
        if count == 0 || self.one_in(12) {
            starts = vec![file.len()];
        }
        (file, starts)
    }

    /// Floats or bytes; some are small numbers, so that they can be taken for counts.
    fn elements_of(&mut self, width: usize, dims: usize) -> Vec<u8> {
        match self.below(8) {
            0 => (0..dims.div_ceil(4) * width)
                .flat_map(|_| (self.below(6) as u32).to_le_bytes())
                .take(width * dims)
                .collect(),
            1 if width == 1 => (0..dims)
                .map(|_| self.pick(&[0, 1, 127, 128, 255]))
                .collect(),
            _ if width == 1 => self.bytes(dims),
            _ => self.body(Kind::Float32Dense, dims),
        }
    }

    /// Cuts a file, or changes something in it, most often the count at a place.
    fn damage_file(&mut self, file: &mut Vec<u8>, start: usize) {
        match self.below(12) {
            0 => file.truncate(self.below(file.len() + 1)),
            1 => file.truncate(file.len().saturating_sub(self.between(1..=5))),
            2 => file.truncate(start + self.below(9)),
            3 => {
                let count = self.between(1..=4);
                file.extend(self.padding(count));
            }
            4 => file.extend((self.between(1..=4) as u32).to_le_bytes()),
            5 if !file.is_empty() => {
                let at = self.below(file.len());
                file[at] ^= 1 << self.below(8);
            }
            change => {
                if let Some(count) = file
                    .get_mut(start..)
                    .and_then(|rest| rest.first_chunk_mut())
                {
                    *count = self.other_count(change, *count);
                }
            }
        }
    }

    fn other_count(&mut self, change: usize, mut count: [u8; 4]) -> [u8; 4] {
        let number = u32::from_le_bytes(count);
        match change {
            6 => count.reverse(),
            7 => count[self.below(4)] = self.byte(),
            8 => count = number.wrapping_add(1).to_le_bytes(),
            9 => count = number.wrapping_sub(1).to_le_bytes(),
            _ => count = self.pick(&COUNTS).to_le_bytes(),
        }
        count
    }

    pub fn appending(&mut self) -> Request {
        let blob = self.blob_to_append();
        // a line has no room for a blob that is too long for Float32Dense and as long a buffer
        let need = match blob.len() {
            long if long > 4 * MOST_DIMS + 1 => 4,
            length => 4 + length / 4 * 4,
        };
        let (fill, length) = if self.one_in(8_000) {
            let length = self.near(MOST_LENGTH);
            (length.saturating_sub(need), length)
        } else {
            self.fill_and_length(need)
        };
        let buffer = self.bytes(length);
        Request::Append { fill, buffer, blob }
    }

    /// A fill, and the length of a buffer that has as much room after it as is needed, or nearly.
    fn fill_and_length(&mut self, need: usize) -> (usize, usize) {
        let before = match self.below(4) {
            0 => 0,
            1 => 4 * self.below(9),
            _ => self.below(40),
        };
        match self.below(16) {
            0 => (before, before),
            1 => (before + self.between(1..=9), before),
            2 => (self.pick(&FAR_PLACES), before + need),
            3 => (before, before + self.below(need)),
            4 => (before, before + need - 1),
            5 => (before + 1, before + need),
            6 => (before, before + need + 1),
            7..=10 => (before, before + need + self.below(40)),
            _ => (before, before + need),
        }
    }

    /// A Float32Dense blob, or now and then another, damaged, or at a limit.
    pub fn blob_to_append(&mut self) -> Vec<u8> {
        if self.one_in(4_000) {
            return self.blob_at_limit();
        }
        let kind = if self.one_in(5) {
            self.kind()
        } else {
            Kind::Float32Dense
        };
        let dims = match self.below(16) {
            0 => self.dims(kind),
            _ => self.pick(&FEW_DIMS),
        };
        let body = self.body(kind, dims);
        let blob = self.blob(kind, dims, &body);
        if self.one_in(8) {
            self.damaged(blob)
        } else {
            blob
        }
    }
}

#[cfg(test)]
mod tests {
    use std::collections::BTreeMap;

    use super::*;
    use crate::generate::lines;
    use crate::lines::Program;
    use crate::oracle::Oracle;

    /// How often each form of answer comes in so many lines of a mode: by its letter, and a refusal
    /// by its number too.
    fn forms(mode: &str, count: usize) -> BTreeMap<String, usize> {
        let mut oracle = Oracle::default();
        let mut forms = BTreeMap::new();
        for line in lines(mode, 1).expect("a mode").take(count) {
            let answer = Program::Vecprobe.answer(&line, &mut oracle);
            let fields: Vec<&str> = answer.split('\t').collect();
            let form = match fields[..] {
                ["R", number, ..] => format!("R {number}"),
                [letter, ..] => letter.to_string(),
                [] => unreachable!("a split has a field"),
            };
            *forms.entry(form).or_default() += 1;
        }
        assert_eq!(oracle.take_findings(), [""; 0], "{mode}");
        forms
    }

    #[test]
    fn every_form_of_answer_is_asked_for() {
        for mode in ["fvecs", "bvecs"] {
            let forms = forms(mode, 20_000);
            let found: Vec<&str> = forms.keys().map(String::as_str).collect();
            assert_eq!(found, ["E", "I", "R 19", "R 9", "X"], "{mode}");
            assert!(forms.values().all(|&count| count > 200), "{forms:?}");
        }
        let forms = forms("append", 20_000);
        for form in [
            "A", "R 13", "R 15", "R 2", "R 3", "R 5", "R 7", "R 8", "R 9", "X",
        ] {
            assert!(forms.contains_key(form), "{form}");
        }
        assert!((9_000..11_000).contains(&forms["A"]), "{forms:?}");
    }

    /// Every blob is appended at the fill last answered; a refusal leaves fill and buffer.
    #[test]
    fn what_is_appended_reads_back() {
        let mut random = Random::new(1);
        let mut oracle = Oracle::default();
        let mut buffer = random.bytes(100_000);
        let mut fill = 0;
        let mut bodies = vec![];
        let mut refused = BTreeMap::new();
        for _ in 0..10_000 {
            let blob = random.blob_to_append();
            let before = buffer.clone();
            match oracle.append(&blob, &mut buffer, fill) {
                Ok(new) => {
                    assert_eq!(buffer[..fill], before[..fill]);
                    assert_eq!(buffer[new..], before[new..]);
                    fill = new;
                    bodies.push(oracle.read(&blob).expect("was accepted").body);
                }
                Err(refusal) => {
                    assert_eq!(buffer, before);
                    *refused.entry(refusal.number).or_insert(0) += 1;
                }
            }
        }
        assert!(bodies.len() > 5_000 && refused[&13] > 0 && refused[&15] > 0);

        let mut place = 0;
        for body in bodies {
            let found = oracle.fvecs(&buffer[..fill], place).expect("no refusal");
            let found = found.expect("a vector");
            assert_eq!((found.dims, &found.body), (body.len() / 4, &body));
            place = found.next;
        }
        assert_eq!(place, fill);
        assert!(matches!(oracle.fvecs(&buffer[..fill], place), Ok(None)));
        assert_eq!(oracle.take_findings(), [""; 0]);
    }
}
