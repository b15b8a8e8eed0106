//! The rules' answers, each held against the Rust's; where the two part there is a finding.

use std::fmt::Debug;

use crate::request::{Answer, Measured, Mode, Nearer, Refused, Reply, Request, Shown, Vecs};
use crate::rules::{self, Kind, Measure, Refusal, View};
use crate::{differences, original, vecs};

/// Stands where the rules expect a value and the Rust has none; a finding says why.
const NO_ANSWER: Refusal = Refusal {
    number: 0,
    carried: None,
};

/// A blob that was read, beside what was seen of it.
struct Seen<'a> {
    blob: &'a [u8],
    view: View,
}

#[derive(Default)]
pub struct Oracle {
    findings: Vec<String>,
}

impl Oracle {
    /// What the Rust did otherwise since the last call.
    pub fn take_findings(&mut self) -> Vec<String> {
        std::mem::take(&mut self.findings)
    }

    pub fn answer(&mut self, request: &Request) -> Reply {
        Ok(match request {
            Request::Read { mode, blob } => Answer::Read(match mode {
                Mode::Plain => self.read(blob)?,
                Mode::Strict => self.strict(blob)?,
            }),
            Request::Write { kind, dims, body } => Answer::Written(self.write(*kind, *dims, body)?),
            Request::Convert { target, blob } => Answer::Converted(self.convert(blob, *target)?),
            Request::Distance { measure, blobs } => {
                Answer::Measured(self.distance(*measure, blobs)?)
            }
            Request::Nearer { measure, blobs } => Answer::Nearer(self.nearer(*measure, blobs)?),
            Request::Find { vecs, place, file } => Answer::Found(match vecs {
                Vecs::Fvecs => self.fvecs(file, *place)?,
                Vecs::Bvecs => self.bvecs(file, *place)?,
            }),
            Request::Append { fill, buffer, blob } => {
                let mut buffer = buffer.clone();
                let fill = self.append(blob, &mut buffer, *fill)?;
                Answer::Appended { fill, buffer }
            }
        })
    }

    /// What is shown of an accepted blob is the Rust's view of it.
    pub fn read(&mut self, blob: &[u8]) -> Result<View, Refusal> {
        let rust = original::read(blob);
        let layout = rules::layout(blob);
        self.hold_reading(&layout, &rust, blob);
        rules::limited(blob, layout).map(|view| rust.unwrap_or(view))
    }

    fn strict(&mut self, blob: &[u8]) -> Result<View, Refusal> {
        let view = self.read(blob)?;
        let strict = rules::strict(&view);
        if view.kind == Kind::Float32Sparse {
            let sorted = original::indices_are_sorted(blob);
            let rises = sorted.map(|sorted| differences::rises(sorted, &view.body));
            self.hold(&Ok(strict.is_ok()), &rises);
        }
        strict.map(|()| view)
    }

    /// The count of readings is that of the Rust's result; the rules have dims or the entries of its body.
    pub fn convert(&mut self, blob: &[u8], target: Kind) -> Result<View, Refusal> {
        let View { kind, dims, .. } = self.read(blob)?;
        let rust = original::convert(blob, target);
        let count = |view: &View| rules::readings(target, dims, &view.body);
        let expected = (target, dims, rust.as_ref().map_or(0, count), true);
        let shape = |view: &View| {
            let fits = view.kind.fits(dims, view.body.len());
            (view.kind, view.dims, view.readings, fits)
        };
        let found = rust.as_ref().map(shape).map_err(String::clone);
        self.hold(&Ok(expected), &found);
        rust.map(|view| differences::converted(kind, view))
            .map_err(|_| NO_ANSWER)
    }

    /// The Rust has no writer: it reads what is written, and must not read a body with a wrong entry.
    fn write(&mut self, kind: Kind, dims: usize, body: &[u8]) -> Result<Vec<u8>, Refusal> {
        let written = rules::write(kind, dims, body);
        let view = match written {
            Ok(_) => Ok(View::new(kind, dims, body)),
            Err(refusal) if refusal.number == 8 => Err(refusal),
            Err(refusal) => return Err(refusal),
        };
        let blob = rules::blob(kind, dims, body);
        self.hold_reading(&view, &original::read(&blob), &blob);
        written
    }

    fn distance(&mut self, measure: Measure, [a, b]: &[Vec<u8>; 2]) -> Result<Measured, Refused> {
        let first = self.see(a, 'a')?;
        let second = self.see(b, 'b')?;
        let distance = self.pair(measure, &first, &second).map_err(unnamed)?;
        Ok(Measured {
            bits: distance.to_bits(),
            readings: [first, second].map(|seen| seen.view.readings),
        })
    }

    fn nearer(
        &mut self,
        measure: Measure,
        [probe, first, second]: &[Vec<u8>; 3],
    ) -> Result<Nearer, Refused> {
        let probe = self.see(probe, 'p')?;
        let first = self.see(first, 'a')?;
        let second = self.see(second, 'b')?;
        let distances = [&first, &second].map(|other| self.pair(measure, &probe, other));
        rules::alike(&probe.view, &first.view)
            .and_then(|()| rules::alike(&probe.view, &second.view))
            .and_then(|()| rules::defined(measure, probe.view.kind))
            .map_err(unnamed)?;
        let [one, other] = distances;
        let (one, other) = (one.map_err(unnamed)?, other.map_err(unnamed)?);
        let which = rules::nearer(one, other).map_err(unnamed)?;
        let (distance, winner) = match which {
            1 => (one, first),
            _ => (other, second),
        };
        Ok(Nearer {
            which,
            bits: distance.to_bits(),
            readings: winner.view.readings,
        })
    }

    /// The vector at a place of an fvecs file; none at the end. The Rust reads its body as a blob.
    pub fn fvecs(&mut self, file: &[u8], place: usize) -> Result<Option<Shown>, Refusal> {
        let Some(found) = vecs::vector_at(4, file, place)? else {
            return Ok(None);
        };
        let (dims, next) = (found.dims, found.next);
        let body = found.elements.to_vec();
        self.hold(&Ok(dense(dims, &body)), &original::read(&body));
        Ok(Some(Shown { dims, body, next }))
    }

    /// The vector at a place of a bvecs file; none at the end. The Rust converts its bytes as those
    /// of a Float8 blob with alpha 1 and shift 0, of which there is none of dims 0.
    fn bvecs(&mut self, file: &[u8], place: usize) -> Result<Option<Shown>, Refusal> {
        let Some(found) = vecs::vector_at(1, file, place)? else {
            return Ok(None);
        };
        let (dims, next) = (found.dims, found.next);
        let body = vecs::floats(found.elements);
        if dims > 0 {
            let rust = original::convert(&float8(found.elements), Kind::Float32Dense);
            self.hold(&Ok(dense(dims, &body)), &rust);
        }
        Ok(Some(Shown { dims, body, next }))
    }

    /// Appends a blob to the fvecs file that fills the buffer so far; the new fill.
    pub fn append(
        &mut self,
        blob: &[u8],
        buffer: &mut [u8],
        fill: usize,
    ) -> Result<usize, Refusal> {
        let view = self.read(blob)?;
        vecs::append(&view, buffer, fill)
    }

    fn see<'a>(&mut self, blob: &'a [u8], name: char) -> Result<Seen<'a>, Refused> {
        match self.read(blob) {
            Ok(view) => Ok(Seen { blob, view }),
            Err(refusal) => Err(Refused {
                refusal,
                blob: Some(name),
            }),
        }
    }

    /// The distance of two blobs that were read: 12, 13, 14, or the Rust's answer.
    fn pair(&mut self, measure: Measure, first: &Seen, second: &Seen) -> Result<f64, Refusal> {
        let allowed = rules::alike(&first.view, &second.view)
            .and_then(|()| rules::defined(measure, first.view.kind));
        let [one, other] = [first, second].map(|x| differences::before(measure, &x.view, x.blob));
        let rust = original::distance(measure, &one, &other);
        self.hold(&allowed, &rust.as_ref().map(|_| ()).map_err(String::clone));
        allowed?;
        rust.map(|answer| differences::distance(measure, first.view.dims, answer))
            .map_err(|_| NO_ANSWER)
    }

    /// Reading a blob: the entry of an 8 has the index at which the Rust stopped.
    fn hold_reading(
        &mut self,
        rules: &Result<View, Refusal>,
        rust: &Result<View, String>,
        blob: &[u8],
    ) {
        self.hold(rules, rust);
        let (Err(refusal), Err(words)) = (rules, rust) else {
            return;
        };
        if refusal.number == 8 {
            let body = &blob[..blob.len() - 5];
            let index = refusal
                .carried
                .and_then(|entry| rules::indices(body).nth(entry));
            if index.is_none() || index != original::index_out_of_range(words) {
                let finding = format!("entry {refusal:?} has index {index:?}, the Rust {words:?}");
                self.findings.push(finding);
            }
        }
    }

    /// A finding, unless both accept with the same facts or both refuse for the same reason.
    fn hold<T: PartialEq + Debug>(&mut self, rules: &Result<T, Refusal>, rust: &Result<T, String>) {
        let same = match (rules, rust) {
            (Ok(expected), Ok(found)) => expected == found,
            (Err(refusal), Err(words)) => original::number(words) == Some(refusal.number),
            _ => false,
        };
        if !same {
            let finding = format!("01 says {rules:?}, the Rust {rust:?}");
            self.findings.push(finding);
        }
    }
}

fn dense(dims: usize, body: &[u8]) -> View {
    View::new(Kind::Float32Dense, dims, body)
}

/// The Float8 blob whose elements are its bytes.
fn float8(bytes: &[u8]) -> Vec<u8> {
    let padding = bytes.len().next_multiple_of(4) - bytes.len();
    let mut blob = bytes.to_vec();
    blob.resize(bytes.len() + padding, 0);
    blob.extend([1f32, 0.0].into_iter().flat_map(f32::to_le_bytes));
    blob.extend([0, padding as u8, Kind::Float8 as u8]);
    blob
}

/// A refusal that is about several blobs together.
fn unnamed(refusal: Refusal) -> Refused {
    let blob = Some('-');
    Refused { refusal, blob }
}

#[cfg(test)]
mod tests {
    use super::*;

    /// Two views that differ in nothing but the count of readings.
    #[test]
    fn another_count_is_a_finding() {
        let view = View::new(Kind::Float32Sparse, 3, &rules::sparse_body(&[0, 2]));
        let readings = view.readings + 1;
        let other = View {
            readings,
            ..view.clone()
        };
        let mut oracle = Oracle::default();
        oracle.hold(&Ok(view.clone()), &Ok(view.clone()));
        assert_eq!(oracle.take_findings().len(), 0);
        oracle.hold(&Ok(view), &Ok(other));
        assert_eq!(oracle.take_findings().len(), 1);
    }

    /// A check that no blob fails (docs/DIFFERENCES.md), with the Rust's words. Where another check has the
    /// same words, they are expected of the blobs that fail it, by n and t as in the table of layouts.
    struct Branch {
        kind: Kind,
        words: &'static str,
        is_expected: fn(usize, usize) -> bool,
    }

    const NEVER_RUN: [Branch; 4] = [
        Branch {
            kind: Kind::Float1Bit,
            words: "float1bit vector blob length must be even and non-empty",
            is_expected: |n, _| n == 0,
        },
        Branch {
            kind: Kind::Float8,
            words: "float8 vector blob must have even length >= 2 (excluding type byte)",
            is_expected: |n, _| n == 0,
        },
        Branch {
            kind: Kind::Float1Bit,
            words: "f1bit vector data length mismatch: got 2 expected 1 for 8 dims",
            is_expected: |n, t| n > 0 && t == 8 * n,
        },
        Branch {
            kind: Kind::Float8,
            words: "f8 vector data too short: 4",
            is_expected: |_, _| false,
        },
    ];

    /// Whether it is a finding if the Rust says this of a blob of the kind, with n bytes before its type byte.
    fn is_finding(kind: Kind, words: &str, n: usize, t: u8) -> bool {
        let mut blob = vec![0; n];
        if let Some(last) = blob.last_mut() {
            *last = t;
        }
        blob.push(kind as u8);
        let mut oracle = Oracle::default();
        oracle.hold_reading(&rules::layout(&blob), &Err(words.to_string()), &blob);
        !oracle.take_findings().is_empty()
    }

    #[test]
    fn a_branch_of_reading_that_never_runs_is_a_finding() {
        let source = include_str!("vector/vector_types.rs");
        let counts = |n| (0..=u8::MAX).map(move |t| (n, t));
        for Branch {
            kind,
            words,
            is_expected,
        } in NEVER_RUN
        {
            let (start, _) = words.split_once(": ").unwrap_or((words, ""));
            assert!(source.contains(start), "the Rust does not say {start:?}");
            for (n, t) in (0..=34).step_by(2).flat_map(counts) {
                let expected = is_expected(n, t.into());
                let found = is_finding(kind, words, n, t);
                assert_eq!(found, !expected, "{words}: n {n}, t {t}");
            }
        }
    }

    /// The last arm of a conversion, which no pair of kinds takes, would panic.
    #[test]
    fn the_last_arm_of_a_conversion_is_a_finding() {
        let words = "unexpected conversion";
        assert!(include_str!("vector/operations/convert.rs").contains(words));
        let panic = original::run(|| -> crate::Result<View> { unreachable!("{words}") });
        for rules in [Ok(dense(0, &[])), Err(7.into())] {
            let mut oracle = Oracle::default();
            oracle.hold(&rules, &panic);
            assert_eq!(oracle.take_findings().len(), 1);
        }
    }
}
