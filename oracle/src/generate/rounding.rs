//! Lines for the root, narrowing, widening and truncation: every edge, then patterns at random.

use super::floats::{half_way, Format, DOUBLE, SINGLE};
use super::random::Random;

/// All edges, then random lines without end.
pub fn lines(mut random: Random) -> impl Iterator<Item = Vec<u8>> {
    edges().chain(std::iter::repeat_with(move || {
        let line = random.rounding_line();
        random.perhaps_spoiled(line)
    }))
}

fn edges() -> impl Iterator<Item = Vec<u8>> {
    let patterns = [SINGLE, DOUBLE].into_iter().flat_map(edges_of_format);
    let ties = edge_patterns(SINGLE)
        .filter(|&pattern| pattern < SINGLE.infinity())
        .flat_map(|low| steps(DOUBLE, half_way(low), -1))
        .flat_map(|tie| [narrow(tie), narrow(tie | DOUBLE.sign())]);
    let bytes = (0..=513)
        .flat_map(|halves| steps(SINGLE, SINGLE.of(halves as f32 / 2.0), -1))
        .flat_map(|near| [trunc(near), trunc(near ^ SINGLE.sign())]);
    patterns.chain(ties).chain(bytes)
}

/// Everything that can be asked of the edges of a format.
fn edges_of_format(format: Format) -> impl Iterator<Item = Vec<u8>> {
    let all = edge_patterns(format)
        .flat_map(move |pattern| [pattern, pattern | format.sign()])
        .flat_map(move |pattern| match format {
            SINGLE => vec![root(format, pattern), widen(pattern), trunc(pattern)],
            _ => vec![root(format, pattern), narrow(pattern)],
        });
    let roots = edge_roots(format)
        .flat_map(move |root| {
            let exponents = [1, 2, format.bias(), format.last_exponent() - 1];
            exponents.map(|exponent| square(format, root, exponent))
        })
        .flat_map(move |square| steps(format, square, -1))
        .map(move |near| root(format, near));
    all.chain(roots)
}

/// Every exponent with the fractions at an edge, without sign.
fn edge_patterns(format: Format) -> impl Iterator<Item = u64> {
    (0..=format.last_exponent()).flat_map(move |exponent| {
        let patterns = format.edge_fractions();
        patterns.map(|fraction| format.pattern(exponent, fraction))
    })
}

/// Roots that are small, fill the format, or have one bit more and so lie half way.
fn edge_roots(format: Format) -> impl Iterator<Item = u64> {
    let full = 1 << format.fraction_bits;
    let ends = [full, 2 * full, 4 * full].into_iter();
    (1..=300).chain(ends.flat_map(|end| end - 32..end + 32))
}

/// The square of a root cut off to the format, times an even power of two that brings it to the
/// exponent field or to the one below.
fn square(format: Format, root: u64, exponent: u64) -> u64 {
    let square = u128::from(root) * u128::from(root);
    let top = square.ilog2();
    let aligned = square << (127 - top) >> (127 - format.fraction_bits);
    let odd = (exponent + format.bias() + u64::from(top)) % 2;
    format.pattern(exponent - odd, aligned as u64 % (1 << format.fraction_bits))
}

/// Four neighbours from `first` steps away on.
fn steps(format: Format, pattern: u64, first: i64) -> [u64; 4] {
    let bits = format.sign() | (format.sign() - 1);
    [0, 1, 2, 3].map(|step| pattern.wrapping_add_signed(first + step) & bits)
}

impl Random {
    fn rounding_line(&mut self) -> Vec<u8> {
        match self.below(5) {
            0 => root(SINGLE, self.radicand(SINGLE)),
            1 => root(DOUBLE, self.radicand(DOUBLE)),
            2 => narrow(self.double_to_narrow()),
            3 => widen(self.float(SINGLE)),
            _ => trunc(self.single_to_truncate()),
        }
    }

    fn radicand(&mut self, format: Format) -> u64 {
        match self.below(8) {
            0 => self.float(format),
            1..=3 => self.float(format) % format.sign(),
            _ => {
                let bits = self.below(format.fraction_bits as usize + 2);
                let root = (1 << bits) + self.word() % (1 << bits);
                let exponent = 1 + self.word() % (format.last_exponent() - 1);
                let near = steps(format, square(format, root, exponent), -1);
                self.pick(&near)
            }
        }
    }

    fn double_to_narrow(&mut self) -> u64 {
        match self.below(4) {
            0 => self.float(DOUBLE),
            1 => self.normal(DOUBLE, DOUBLE.bias() - 152, 282),
            _ => self.narrowing_tie(),
        }
    }

    fn single_to_truncate(&mut self) -> u64 {
        match self.below(4) {
            0 => self.float(SINGLE),
            1 => {
                let half = SINGLE.of(self.below(520) as f32 / 2.0);
                self.pick(&steps(SINGLE, half, -2))
            }
            _ => self.normal(SINGLE, SINGLE.bias() - 2, 12),
        }
    }
}

fn root(format: Format, pattern: u64) -> Vec<u8> {
    match format {
        SINGLE => format!("root\t32\t{pattern:08x}"),
        _ => format!("root\t64\t{pattern:016x}"),
    }
    .into_bytes()
}

fn narrow(pattern: u64) -> Vec<u8> {
    format!("narrow\t{pattern:016x}").into_bytes()
}

fn widen(pattern: u64) -> Vec<u8> {
    format!("widen\t{pattern:08x}").into_bytes()
}

fn trunc(pattern: u64) -> Vec<u8> {
    format!("trunc\t{pattern:08x}").into_bytes()
}
