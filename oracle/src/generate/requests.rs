//! Requests, their lines for `vecdist` and `vecprobe`, and lines that are none.

use super::random::Random;
use crate::differences::MOST_DIMS;
use crate::lines::{self, Program};
use crate::request::{Mode, Request, Vecs};
use crate::rules::{Kind, Measure};

/// Dims that the writer refuses; three of them are small or at the limit in their lowest 32 bits.
const REFUSED_DIMS: [usize; 6] = [
    65_537,
    4_294_967_295,
    4_294_967_296,
    4_294_967_304,
    4_295_032_832,
    9_999_999_999,
];

/// What a number in a line must not be.
const NO_NUMBERS: [&str; 8] = [
    "",
    "+0",
    "-1",
    "0x0",
    " 0",
    "0.",
    "00000000000",
    "99999999999",
];

impl Random {
    /// A request of any word, now and then one that is too long for a line.
    pub fn request(&mut self) -> Request {
        match self.below(20) {
            10..=16 if self.one_in(8_000) => self.comparison_at_limit(),
            0 | 1 => self.reading(Mode::Plain),
            2 | 3 => self.reading(Mode::Strict),
            4 | 5 => self.writing(),
            6..=9 => self.conversion(),
            10..=13 => self.distance(),
            14..=16 => self.nearer(),
            17 => self.finding(Vecs::Fvecs),
            18 => self.finding(Vecs::Bvecs),
            _ => self.appending(),
        }
    }

    pub fn distance(&mut self) -> Request {
        let [first, second, _] = if self.one_in(2_000) {
            self.blobs_of_half_a_line()
        } else {
            self.blobs_to_compare()
        };
        Request::Distance {
            measure: self.pick(&Measure::ALL),
            blobs: [first, second],
        }
    }

    pub fn nearer(&mut self) -> Request {
        let blobs = if self.one_in(4_000) {
            let kind = self.pick(&[Kind::Float1Bit, Kind::Float8, Kind::Float32Sparse]);
            let dims = self.near(MOST_DIMS);
            self.relatives(kind, dims)
        } else {
            self.blobs_to_compare()
        };
        let measure = self.pick(&Measure::ALL);
        Request::Nearer { measure, blobs }
    }

    /// A distance or the nearer of two, of any kind and as many dims as there may be, or nearly.
    fn comparison_at_limit(&mut self) -> Request {
        let (kind, dims) = (self.kind(), self.near(MOST_DIMS));
        let measure = self.pick(&Measure::ALL);
        let blobs = [(); 3].map(|()| {
            let body = self.body_at_limit(kind, dims);
            self.blob(kind, dims, &body)
        });
        if self.one_in(2) {
            return Request::Nearer { measure, blobs };
        }
        let [first, second, _] = blobs;
        let blobs = [first, second];
        Request::Distance { measure, blobs }
    }

    pub fn reading(&mut self, mode: Mode) -> Request {
        let blob = self.blob_to_read(4);
        Request::Read { mode, blob }
    }

    pub fn conversion(&mut self) -> Request {
        let target = self.kind();
        let blob = self.blob_to_read(20);
        Request::Convert { target, blob }
    }

    pub fn writing(&mut self) -> Request {
        let kind = self.kind();
        let (mut dims, mut body) = if self.one_in(4_000) {
            let dims = self.near(MOST_DIMS);
            (dims, self.body_at_limit(kind, dims))
        } else {
            let dims = self.dims(kind);
            (dims, self.body(kind, dims))
        };
        match self.below(16) {
            0 => body = self.damaged(body),
            1 => dims = self.pick(&REFUSED_DIMS),
            2 => dims += self.below(9),
            _ => {}
        }
        Request::Write { kind, dims, body }
    }

    /// The line of a request, whose number, if it has one, has zeros in front or none; in a line about files
    /// it is now and then no number.
    pub fn line(&mut self, request: &Request) -> Vec<u8> {
        let number = request.number().map(|number| match request {
            Request::Write { .. } => self.padded(number),
            _ if self.one_in(256) => self.pick(&NO_NUMBERS).to_string(),
            _ => self.padded(number),
        });
        lines::spelled(request, number).into_bytes()
    }

    fn padded(&mut self, number: usize) -> String {
        let digits = self.pick(&[1, 1, 1, 2, 5, 10]);
        format!("{number:0digits$}")
    }

    /// The line; a few are stretched to the longest that a program takes, or just past it.
    pub fn perhaps_stretched(&mut self, program: Program, mut line: Vec<u8>) -> Vec<u8> {
        if self.one_in(20_000) {
            let length = program.longest() - 1 + self.below(4);
            line.resize(length.max(line.len()), b'0');
        }
        line
    }

    /// The line, but the shape of some is broken.
    pub fn perhaps_spoiled(&mut self, mut line: Vec<u8>) -> Vec<u8> {
        if !self.one_in(64) {
            return line;
        }
        let at = self.below(line.len());
        match self.below(8) {
            0 => line.truncate(at),
            1 | 2 => line.insert(at, self.pick(b"\t \r\0gGAF-+.x0a")),
            3 => line[at] = self.pick(b"\t \r\0gGAF-+.x0a"),
            4 => line.make_ascii_uppercase(),
            5 => line.push(b'\r'),
            6 => line.push(b'\t'),
            _ => line = [b"\xef\xbb\xbf", &line[..]].concat(),
        }
        line
    }

    /// A blob, now and then at a limit, one in `rarity` damaged.
    fn blob_to_read(&mut self, rarity: usize) -> Vec<u8> {
        let blob = if self.one_in(4_000) {
            self.blob_at_limit()
        } else {
            self.any_blob()
        };
        if self.one_in(rarity) {
            self.damaged(blob)
        } else {
            blob
        }
    }

    /// Three blobs, as a rule of one kind and dims, one of which may not go with the others.
    fn blobs_to_compare(&mut self) -> [Vec<u8>; 3] {
        let kind = self.kind();
        let dims = self.dims(kind);
        let mut blobs = self.relatives(kind, dims);
        let odd = self.below(3);
        match self.below(24) {
            0 => blobs[odd] = self.any_blob(),
            1 if dims < 1_000 => {
                let kind = self.kind();
                let body = self.body(kind, dims);
                blobs[odd] = self.blob(kind, dims, &body);
            }
            2 => blobs[odd] = self.damaged(blobs[odd].clone()),
            _ => {}
        }
        blobs
    }

    /// Blobs of half a line of `vecdist`, so that two fit just so or not at all.
    fn blobs_of_half_a_line(&mut self) -> [Vec<u8>; 3] {
        let kind = self.kind();
        let length = Program::Vecdist.longest() / 4 - self.below(6);
        let dims = match kind {
            Kind::Float32Dense => length / 4,
            Kind::Float64Dense => length / 8,
            Kind::Float1Bit => 8 * (length - 2),
            Kind::Float8 => length - 11,
            Kind::Float32Sparse => length,
        };
        self.relatives(kind, dims)
    }

    /// Three blobs of one kind and dims, made of related bodies, sometimes of the same.
    fn relatives(&mut self, kind: Kind, dims: usize) -> [Vec<u8>; 3] {
        let body = self.body(kind, dims);
        let mut last = body.clone();
        [(); 3].map(|()| {
            if !self.one_in(4) {
                last = self.relative(kind, dims, &body);
            }
            self.blob(kind, dims, &last)
        })
    }
}
