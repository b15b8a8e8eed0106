//! Blobs of every kind: well made, oddly made and damaged.

use super::floats::{Format, DOUBLE, SINGLE};
use super::random::Random;
use crate::differences::{MOST_DIMS, MOST_LENGTH};
use crate::rules::Kind;

/// Dims on both sides of whole bytes, words and groups of four.
const DIMS: [usize; 20] = [
    0, 1, 2, 3, 4, 5, 6, 7, 8, 9, 11, 12, 13, 15, 16, 17, 23, 24, 25, 32,
];
const MORE_DIMS: [usize; 12] = [31, 33, 47, 48, 63, 64, 65, 127, 128, 255, 256, 257];

/// Dims that only a sparse blob can name in a few bytes.
const FAR_DIMS: [usize; 8] = [
    65_535,
    65_536,
    65_537,
    70_000,
    1 << 24,
    (1 << 31) - 1,
    1 << 31,
    (1 << 32) - 1,
];

impl Random {
    pub fn kind(&mut self) -> Kind {
        self.pick(&Kind::ALL)
    }

    /// Dims that suit a kind, mostly few.
    pub fn dims(&mut self, kind: Kind) -> usize {
        if kind == Kind::Float32Sparse && self.one_in(48) {
            self.pick(&FAR_DIMS)
        } else if self.one_in(16) {
            self.pick(&MORE_DIMS)
        } else {
            self.pick(&DIMS)
        }
    }

    pub fn body(&mut self, kind: Kind, dims: usize) -> Vec<u8> {
        match kind {
            Kind::Float32Dense => self.floats(SINGLE, dims),
            Kind::Float64Dense => self.floats(DOUBLE, dims),
            Kind::Float1Bit => self.bits(dims),
            Kind::Float8 => self.quantized(dims),
            Kind::Float32Sparse => {
                let few = if self.one_in(500) { 1_000 } else { 11 };
                let count = self.below(dims.min(few) + 2);
                self.entries(dims, count)
            }
        }
    }

    fn floats(&mut self, format: Format, count: usize) -> Vec<u8> {
        let mut bytes = Vec::with_capacity(count * format.width());
        for pattern in self.elements(format, count) {
            bytes.extend_from_slice(&pattern.to_le_bytes()[..format.width()]);
        }
        bytes
    }

    /// Bits at random, all alike, or few; unused ones are cleared half of the time.
    fn bits(&mut self, dims: usize) -> Vec<u8> {
        let length = dims.div_ceil(8);
        let mut body = match self.below(6) {
            0 => vec![0; length],
            1 => vec![0xff; length],
            2 => (0..length)
                .map(|_| self.byte() & self.byte() & self.byte())
                .collect(),
            _ => self.bytes(length),
        };
        if !dims.is_multiple_of(8) && self.one_in(2) {
            body[length - 1] %= 1 << (dims % 8);
        }
        body
    }

    /// Quantized bytes, padding that may be odd, alpha and shift.
    fn quantized(&mut self, dims: usize) -> Vec<u8> {
        let mut body = match self.below(5) {
            0 => vec![self.byte(); dims],
            1 => (0..dims).map(|_| self.pick(&[0, 255])).collect(),
            _ => self.bytes(dims),
        };
        body.extend(self.padding(dims.next_multiple_of(4) - dims));
        body.extend(self.floats(SINGLE, 1));
        body.extend(self.floats(SINGLE, 1));
        body
    }

    /// Bytes that nothing tests: zero as the writer has them, or odd.
    pub fn padding(&mut self, count: usize) -> Vec<u8> {
        if self.one_in(3) {
            self.bytes(count)
        } else {
            vec![0; count]
        }
    }

    /// Sparse entries with rising indices, or repeated, falling or out of range.
    pub fn entries(&mut self, dims: usize, count: usize) -> Vec<u8> {
        let mut indices: Vec<u32> = (0..count).map(|_| self.below(dims.max(1)) as u32).collect();
        if !self.one_in(4) {
            indices.sort_unstable();
            if !self.one_in(4) {
                indices.dedup();
            }
            if indices.len() > 1 && self.one_in(4) {
                self.put_twice(&mut indices);
            }
        }
        if !indices.is_empty() && self.one_in(20) {
            self.put_outside(dims, &mut indices);
        }
        let mut body = self.floats(SINGLE, indices.len());
        body.extend(indices.into_iter().flat_map(u32::to_le_bytes));
        body
    }

    /// Gives an entry the index of the one before it: entry 1, the last or any. A third of the time, where
    /// entries follow, one of them gets an index that is no greater.
    fn put_twice(&mut self, indices: &mut [u32]) {
        let last = indices.len() - 1;
        let at = match self.below(3) {
            0 => 1,
            1 => last,
            _ => self.between(1..=last),
        };
        indices[at] = indices[at - 1];
        if at < last && self.one_in(3) {
            let after = self.between(at + 1..=last);
            indices[after] = self.below(indices[at] as usize + 1) as u32;
        }
    }

    /// Puts an index out of range, or two of them, or the last.
    fn put_outside(&mut self, dims: usize, indices: &mut [u32]) {
        let last = indices.len() - 1;
        let places = match self.below(3) {
            0 => [last; 2],
            1 => [self.between(0..=last); 2],
            _ => [self.between(0..=last), self.between(0..=last)],
        };
        for at in places {
            let past = self.pick(&[0, 1, 1 << 16, 1 << 31]);
            indices[at] = (dims as u32).wrapping_add(past);
        }
    }

    /// A body to compare with another: often close to it, so that sums cancel and distances tie.
    pub fn relative(&mut self, kind: Kind, dims: usize, body: &[u8]) -> Vec<u8> {
        let change = self.below(8);
        if change > 3 {
            return self.body(kind, dims);
        }
        let mut other = body.to_vec();
        let (reach, width) = match kind {
            Kind::Float32Sparse => (body.len() / 2, 4),
            Kind::Float64Dense => (body.len(), 8),
            _ => (body.len(), 4),
        };
        for element in other[..reach].chunks_mut(width) {
            let last = element.len() - 1;
            match change {
                1 if self.one_in(2) => element[last] ^= 0x80,
                2 if self.one_in(3) => element[self.between(0..=last)] ^= 1 << self.below(8),
                3 if self.one_in(2) => element.fill(0),
                _ => {}
            }
        }
        other
    }

    /// The blob of a body, with whatever freedom its kind leaves the maker.
    pub fn blob(&mut self, kind: Kind, dims: usize, body: &[u8]) -> Vec<u8> {
        let mut blob = body.to_vec();
        match kind {
            Kind::Float32Dense if self.one_in(2) => return blob,
            Kind::Float32Dense | Kind::Float64Dense => {}
            Kind::Float1Bit => {
                let shortest = (body.len() + 1).next_multiple_of(2);
                let spare = (255 + dims - 8 * shortest) / 16;
                let more = if self.one_in(3) {
                    self.below(spare + 1)
                } else {
                    0
                };
                let n = shortest + 2 * more;
                blob.extend(self.padding(n - 1 - body.len()));
                blob.push((8 * n - dims) as u8);
            }
            Kind::Float8 => {
                blob.extend(self.padding(1));
                blob.push((dims.next_multiple_of(4) - dims) as u8);
            }
            Kind::Float32Sparse => blob.extend((dims as u32).to_le_bytes()),
        }
        blob.push(kind as u8);
        blob
    }

    /// A blob of any kind, made of its own body.
    pub fn any_blob(&mut self) -> Vec<u8> {
        let kind = self.kind();
        let dims = self.dims(kind);
        let body = self.body(kind, dims);
        self.blob(kind, dims, &body)
    }

    /// A blob with something wrong in it, most often near its end.
    pub fn damaged(&mut self, mut blob: Vec<u8>) -> Vec<u8> {
        let length = blob.len();
        let tail = length - self.below(length.min(6) + 1);
        let count = self.between(1..=9);
        match self.below(7) {
            0 => blob.truncate(length.saturating_sub(count)),
            1 => blob.extend(self.bytes(count)),
            2 => blob.insert(tail, self.byte()),
            3 if tail < length => {
                blob.remove(tail);
            }
            4 if tail < length => blob[tail] = self.byte(),
            5 if length > 0 => blob[self.below(length)] ^= 1 << self.below(8),
            _ => blob.extend([self.below(30) as u8, self.below(12) as u8]),
        }
        blob
    }

    /// A blob next to one of the limits.
    pub fn blob_at_limit(&mut self) -> Vec<u8> {
        if self.one_in(8) {
            let length = self.near(MOST_LENGTH);
            return self.bytes(length);
        }
        let (kind, dims) = (self.kind(), self.near(MOST_DIMS));
        let body = self.body_at_limit(kind, dims);
        self.blob(kind, dims, &body)
    }

    /// A body for dims next to the limit; a sparse one has as many entries.
    pub fn body_at_limit(&mut self, kind: Kind, dims: usize) -> Vec<u8> {
        if kind == Kind::Float32Sparse {
            let count = self.near(MOST_DIMS);
            self.entries(dims, count)
        } else {
            self.body(kind, dims)
        }
    }

    /// A limit, the number past it, or one of the three before it.
    pub fn near(&mut self, limit: usize) -> usize {
        self.between(limit - 3..=limit + 1)
    }
}

#[cfg(test)]
mod tests {
    use super::*;
    use crate::rules;

    /// Indices rise, fall first, or repeat first: at entry 1, between or at the last, with a fall after that
    /// or none.
    #[test]
    fn indices_go_every_way() {
        let mut random = Random::new(1);
        let (mut rising, mut falling, mut repeating) = (0, 0, [[0; 2]; 3]);
        for _ in 0..10_000 {
            let body = random.entries(50, 6);
            let pairs: Vec<_> = rules::neighbours(&body).collect();
            let Some(at) = pairs.iter().position(|(before, index)| index <= before) else {
                rising += 1;
                continue;
            };
            let falls = |(before, index): &(u32, u32)| index < before;
            if falls(&pairs[at]) {
                falling += 1;
                continue;
            }
            let place = match at {
                0 => 0,
                at if at + 1 < pairs.len() => 1,
                _ => 2,
            };
            repeating[place][usize::from(pairs[at..].iter().any(falls))] += 1;
        }
        assert!(rising > 1_000 && falling > 1_000);
        let [first, between, [last, nothing_after]] = repeating;
        assert!(first.iter().chain(&between).all(|&count| count > 50) && last > 50);
        assert_eq!(nothing_after, 0);
    }
}
