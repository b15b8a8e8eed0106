//! What is compared and timed: every distance of every kind, every conversion that is no copy, and what
//! is done with files of vectors.

use std::fmt;
use std::hint::black_box;

use crate::clock::{race, Times};
use crate::files::FileWork;
use crate::original::Aligned;
use crate::rules::{defined, Kind, Measure, View};
use crate::{differences, ours, rides, theirs};

pub const DIMS: [usize; 4] = [8, 128, 1024, 16384];
const MEASURES: [Measure; 4] = [Measure::Cos, Measure::L2, Measure::Dot, Measure::Jac];

#[derive(Clone, Copy)]
enum Work {
    Distance(Measure),
    Conversion(Kind),
    File(FileWork),
}

pub struct Case {
    work: Work,
    kind: Kind,
    pub dims: usize,
}

pub fn all() -> Vec<Case> {
    let mut cases = Vec::new();
    for dims in DIMS {
        for kind in Kind::ALL {
            let distances = MEASURES.into_iter().filter(|&m| defined(m, kind).is_ok());
            let targets = Kind::ALL.into_iter().filter(|&target| target != kind);
            let works = distances.map(Work::Distance);
            let works = works.chain(targets.map(Work::Conversion));
            cases.extend(works.map(|work| Case { work, kind, dims }));
        }
        let (works, kind) = (FileWork::ALL.map(Work::File), Kind::Float32Dense);
        cases.extend(works.map(|work| Case { work, kind, dims }));
    }
    cases
}

impl Case {
    /// What is done, whatever the dims.
    pub fn title(&self) -> String {
        let Self { work, kind, .. } = self;
        match work {
            Work::Distance(measure) => format!("{} of {kind:?}", named(*measure)),
            Work::Conversion(target) => format!("{kind:?} to {target:?}"),
            Work::File(work) => work.title().to_string(),
        }
    }

    /// Where the two sides part: the bits of a distance, the dims and bytes of a conversion, with
    /// the differences that docs/DIFFERENCES.md lists and no others.
    pub fn difference(&self) -> Option<String> {
        let (ours, theirs) = match self.work {
            Work::Distance(measure) => {
                let [first, second] = self.pair();
                let ours = ours::distance(ours::function(measure), &first, &second);
                let theirs = theirs::distance(theirs::function(measure), &first, &second);
                let theirs: Result<_, u32> = Ok(differences::distance(measure, self.dims, theirs));
                let bits = |answer: Result<f64, u32>| format!("{:x?}", answer.map(f64::to_bits));
                (bits(ours), bits(theirs))
            }
            Work::Conversion(kind) => {
                let (blob, mut room) = (self.source(), ours::Room::new(self.dims));
                let ours = ours::convert(&blob, kind, &mut room);
                let made = theirs::convert(&blob, kind.into());
                let theirs = View::new(kind, made.dims, made.bin_data());
                let theirs = differences::converted(self.kind, theirs);
                let theirs: Result<_, u32> = Ok((theirs.dims, &theirs.body[..]));
                (format!("{ours:x?}"), format!("{theirs:x?}"))
            }
            Work::File(work) => {
                let [ours, theirs] = work.difference(self.dims)?;
                (ours, theirs)
            }
        };
        (ours != theirs).then(|| format!("{self}: ours {ours:.100}, theirs {theirs:.100}"))
    }

    pub fn time(&self) -> Times {
        match self.work {
            Work::Distance(measure) => {
                let [first, second] = self.pair();
                let (ours, theirs) = (ours::function(measure), theirs::function(measure));
                race(
                    || ours::distance(ours, black_box(&first), black_box(&second)),
                    || theirs::distance(theirs, black_box(&first), black_box(&second)),
                )
            }
            Work::Conversion(kind) => {
                let (blob, mut room) = (self.source(), ours::Room::new(self.dims));
                race(
                    || ours::convert(black_box(&blob), kind, &mut room).map(|made| made.0),
                    || theirs::convert(black_box(&blob), kind.into()),
                )
            }
            Work::File(work) => work.time(self.dims),
        }
    }

    /// One call of one side, between two marks.
    pub fn once(&self, is_ours: bool) {
        match self.work {
            Work::Distance(measure) => {
                let [first, second] = self.pair();
                let (ours, theirs) = (ours::function(measure), theirs::function(measure));
                if is_ours {
                    marked(|| ours::distance(ours, &first, &second));
                } else {
                    marked(|| theirs::distance(theirs, &first, &second));
                }
            }
            Work::Conversion(kind) => {
                let (blob, mut room) = (self.source(), ours::Room::new(self.dims));
                if is_ours {
                    marked(|| ours::convert(&blob, kind, &mut room).map(|made| made.0));
                } else {
                    marked(|| theirs::convert(&blob, kind.into()));
                }
            }
            Work::File(work) => work.once(self.dims, is_ours),
        }
    }

    /// The two blobs of a distance.
    fn pair(&self) -> [Aligned; 2] {
        [1, 2].map(|seed| rides::blob(self.kind, self.dims, seed))
    }

    /// The blob of a conversion.
    fn source(&self) -> Aligned {
        match self.work {
            Work::Conversion(Kind::Float32Sparse) => rides::gappy_blob(self.kind, self.dims, 1),
            _ => rides::blob(self.kind, self.dims, 1),
        }
    }
}

pub fn marked<T>(call: impl FnOnce() -> T) {
    bench_mark();
    black_box(call());
    bench_mark();
}

/// Stands before and after the one call that `bench/model` looks at.
#[no_mangle]
#[inline(never)]
pub extern "C" fn bench_mark() {
    black_box(());
}

fn named(measure: Measure) -> &'static str {
    match measure {
        Measure::Cos => "cosine",
        Measure::L2 => "L2",
        Measure::Dot => "dot",
        Measure::Jac => "Jaccard",
    }
}

impl fmt::Display for Case {
    fn fmt(&self, f: &mut fmt::Formatter<'_>) -> fmt::Result {
        write!(f, "{}, {} dims", self.title(), self.dims)
    }
}
