//! Floats of every class, as patterns, for either width.

use super::random::Random;

/// The layout of a float's pattern.
#[derive(Clone, Copy, PartialEq, Eq)]
pub struct Format {
    exponent_bits: u32,
    pub fraction_bits: u32,
}

pub const SINGLE: Format = Format {
    exponent_bits: 8,
    fraction_bits: 23,
};

pub const DOUBLE: Format = Format {
    exponent_bits: 11,
    fraction_bits: 52,
};

impl Format {
    /// The exponent field of infinities and NaNs.
    pub fn last_exponent(self) -> u64 {
        (1 << self.exponent_bits) - 1
    }

    pub fn bias(self) -> u64 {
        self.last_exponent() / 2
    }

    pub fn sign(self) -> u64 {
        1 << (self.exponent_bits + self.fraction_bits)
    }

    pub fn pattern(self, exponent: u64, fraction: u64) -> u64 {
        exponent << self.fraction_bits | fraction
    }

    pub fn infinity(self) -> u64 {
        self.pattern(self.last_exponent(), 0)
    }

    /// The pattern of a value that both widths hold.
    pub fn of(self, value: f32) -> u64 {
        match self {
            SINGLE => value.to_bits().into(),
            _ => f64::from(value).to_bits(),
        }
    }

    /// Fractions next to 0, to a half and to the end.
    pub fn edge_fractions(self) -> [u64; 8] {
        let end = 1 << self.fraction_bits;
        let half = end / 2;
        [0, 1, 2, half - 1, half, half + 1, end - 2, end - 1]
    }

    /// How many bytes a pattern has in a blob, the lowest first.
    pub fn width(self) -> usize {
        if self == SINGLE {
            4
        } else {
            8
        }
    }
}

/// How the elements of one vector are drawn.
#[derive(Clone, Copy)]
enum Temper {
    Zeros,
    Halves,
    Ordinary,
    Sprinkled,
    Tiny,
    Huge,
    Wide,
    Ties,
    Special,
    NotNumbers,
}

impl Temper {
    const USUAL: [Self; 4] = [Self::Halves, Self::Ordinary, Self::Sprinkled, Self::Ties];
    const RARE: [Self; 6] = [
        Self::Zeros,
        Self::Tiny,
        Self::Huge,
        Self::Wide,
        Self::Special,
        Self::NotNumbers,
    ];
}

impl Random {
    /// Elements of one vector: of one temper, now and then all the same.
    pub fn elements(&mut self, format: Format, count: usize) -> Vec<u64> {
        let temper = self.temper();
        if self.one_in(16) {
            return vec![self.element(format, temper); count];
        }
        (0..count).map(|_| self.element(format, temper)).collect()
    }

    /// One float of any temper.
    pub fn float(&mut self, format: Format) -> u64 {
        let temper = self.temper();
        self.element(format, temper)
    }

    fn temper(&mut self) -> Temper {
        if self.one_in(3) {
            self.pick(&Temper::RARE)
        } else {
            self.pick(&Temper::USUAL)
        }
    }

    fn element(&mut self, format: Format, temper: Temper) -> u64 {
        let bias = format.bias();
        let smallest_square = (bias - u64::from(format.fraction_bits)) / 2;
        match temper {
            Temper::Zeros => self.signed(format, 0),
            Temper::Halves => format.of(self.below(33) as f32 / 2.0 - 8.0),
            Temper::Sprinkled if self.one_in(6) => self.special(format),
            Temper::Ordinary | Temper::Sprinkled => self.normal(format, bias - 6, 12),
            Temper::Tiny => self.normal(format, smallest_square, 24),
            Temper::Huge => self.normal(format, bias + bias / 2 - 6, 12),
            Temper::Wide => self.normal(format, 0, format.last_exponent()),
            Temper::Ties if format == DOUBLE => self.narrowing_tie(),
            Temper::Ties => self.normal(format, bias, 1),
            Temper::Special => self.special(format),
            Temper::NotNumbers => self.nan(format),
        }
    }

    fn signed(&mut self, format: Format, magnitude: u64) -> u64 {
        magnitude | self.pick(&[0, format.sign()])
    }

    /// A float with one of `count` exponents from `first` on and any fraction.
    pub fn normal(&mut self, format: Format, first: u64, count: u64) -> u64 {
        let exponent = first + self.word() % count;
        let fraction = self.word() % (1 << format.fraction_bits);
        self.signed(format, format.pattern(exponent, fraction))
    }

    /// Zeros, subnormals, ends of the range, infinities, NaNs, neighbours of powers of two.
    fn special(&mut self, format: Format) -> u64 {
        let fraction = self.pick(&format.edge_fractions());
        let any_exponent = self.word() % format.last_exponent();
        match self.below(9) {
            0 => self.signed(format, 0),
            1 => self.signed(format, format.infinity()),
            2 => self.nan(format),
            3 => self.signed(format, fraction),
            4 => self.normal(format, 0, 1),
            5 => self.signed(format, format.pattern(1, fraction)),
            6 => self.signed(format, format.infinity() - 1 - fraction % 3),
            7 => self.signed(format, format.pattern(format.bias(), fraction)),
            _ => self.signed(format, format.pattern(any_exponent, fraction)),
        }
    }

    /// A NaN of either sign, quiet or signalling, with a payload at an edge or any.
    fn nan(&mut self, format: Format) -> u64 {
        let [_, edges @ ..] = format.edge_fractions();
        let any = 1 + self.word() % ((1 << format.fraction_bits) - 1);
        let payload = if self.one_in(2) {
            any
        } else {
            self.pick(&edges)
        };
        self.signed(format, format.infinity() | payload)
    }

    /// An f64 half way between two f32 neighbours, or next to it.
    pub fn narrowing_tie(&mut self) -> u64 {
        let low = match self.below(4) {
            0 => self.special(SINGLE),
            1 => self.normal(SINGLE, 0, SINGLE.last_exponent()),
            _ => self.normal(SINGLE, SINGLE.bias() - 6, 12),
        };
        let tie = half_way(low % SINGLE.sign() % SINGLE.infinity());
        let near = tie.wrapping_add_signed(self.pick(&[0, 0, -1, 1]));
        self.signed(DOUBLE, near)
    }
}

/// The f64 pattern half way from a finite f32, given without sign, to the next; past the greatest
/// comes 2^128.
pub fn half_way(low: u64) -> u64 {
    let value = |pattern: u64| f64::from(f32::from_bits(pattern as u32));
    let next = if low + 1 == SINGLE.infinity() {
        2f64.powi(128)
    } else {
        value(low + 1)
    };
    ((value(low) + next) / 2.0).to_bits()
}
