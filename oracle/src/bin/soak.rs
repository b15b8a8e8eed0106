//! `soak SECONDS [SEED]`: puts generated requests to our archive and to the oracle, and compares.

use std::process::ExitCode;
use std::time::{Duration, Instant, SystemTime, UNIX_EPOCH};

use fulandewu::{Candidate, Distance, VectorType, Which};
use oracle::generate::random::Random;
use oracle::request::{Answer, Measured, Mode, Nearer, Refused, Reply, Request, Shown, Vecs};
use oracle::rules::{Kind, Measure, Refusal, View};
use oracle::soak::{Lent, Soak, Tally};

/// How many requests go by between two looks at the clock.
const BATCH: usize = 1_000;

fn main() -> ExitCode {
    let arguments: Vec<String> = std::env::args().skip(1).collect();
    match understood(&arguments) {
        Some((time, seed)) => run(time, seed),
        None => {
            eprintln!("usage: soak SECONDS [SEED], both whole numbers and SECONDS above 0");
            ExitCode::from(2)
        }
    }
}

/// For how long, and the seed, which is the time where none is given.
fn understood(arguments: &[String]) -> Option<(Duration, u64)> {
    let (seconds, seed) = match arguments {
        [seconds] => {
            let now = SystemTime::now().duration_since(UNIX_EPOCH);
            (seconds, now.ok()?.as_secs())
        }
        [seconds, seed] => (seconds, seed.parse().ok()?),
        _ => return None,
    };
    let seconds = seconds.parse().ok().filter(|&seconds| seconds > 0)?;
    Some((Duration::from_secs(seconds), seed))
}

fn run(time: Duration, seed: u64) -> ExitCode {
    println!("seed {seed}");
    let mut soak = Soak::new(ours);
    let (mut random, mut tally) = (Random::new(seed), Tally::default());
    let start = Instant::now();
    while start.elapsed() < time {
        let Some(case) = soak.run(&mut random, BATCH, &mut tally) else {
            continue;
        };
        println!("request {} differs and is cut down", tally.requests() + 1);
        // a panic of ours is printed as its answer
        std::panic::set_hook(Box::new(|_| {}));
        let case = soak.cut_down(case);
        println!("{}", soak.compare(&case).report(&case));
        return ExitCode::FAILURE;
    }
    let (requests, seconds) = (tally.requests(), start.elapsed().as_secs_f64());
    print!("{tally}");
    println!("{requests} requests in {seconds:.1} s, 0 differences");
    ExitCode::SUCCESS
}

/// Our reply, by the exports.
fn ours(request: &Request, lent: &mut Lent) -> Reply {
    let Lent { scratch, out } = lent;
    Ok(match request {
        Request::Read { mode, blob } => {
            let mode = match mode {
                Mode::Plain => fulandewu::Mode::Plain,
                Mode::Strict => fulandewu::Mode::Strict,
            };
            Answer::Read(view(fulandewu::read(mode, blob).map_err(refused)?))
        }
        Request::Write { kind, dims, body } => {
            let length = fulandewu::write(vector_type(*kind), *dims, body, out).map_err(refused)?;
            Answer::Written(out[..length].to_vec())
        }
        Request::Convert { target, blob } => {
            let made = fulandewu::convert(blob, vector_type(*target), scratch, out);
            Answer::Converted(view(made.map_err(refused)?))
        }
        Request::Distance { measure, blobs } => Answer::Measured(measured(*measure, blobs)?),
        Request::Nearer { measure, blobs } => Answer::Nearer(nearer(*measure, blobs)?),
        Request::Find { vecs, place, file } => {
            let found = match vecs {
                Vecs::Fvecs => fulandewu::fvecs_at(file, *place),
                Vecs::Bvecs => fulandewu::bvecs_at(file, *place, out),
            };
            Answer::Found(found.map_err(refused)?.map(shown))
        }
        Request::Append { fill, blob, .. } => {
            let fill = fulandewu::append_fvecs(blob, out, *fill).map_err(refused)?;
            let buffer = out.clone();
            Answer::Appended { fill, buffer }
        }
    })
}

fn measured(measure: Measure, [first, second]: &[Vec<u8>; 2]) -> Result<Measured, Refused> {
    let measured = fulandewu::distance(distance(measure), first, second).map_err(naming)?;
    Ok(Measured {
        bits: measured.distance.to_bits(),
        readings: [measured.readings, measured.other_readings],
    })
}

fn nearer(measure: Measure, [probe, first, second]: &[Vec<u8>; 3]) -> Result<Nearer, Refused> {
    let nearer = fulandewu::nearer(distance(measure), probe, first, second).map_err(naming)?;
    Ok(Nearer {
        which: match nearer.candidate {
            Candidate::First => 1,
            Candidate::Second => 2,
        },
        bits: nearer.distance.to_bits(),
        readings: nearer.readings,
    })
}

fn view(view: fulandewu::View) -> View {
    View {
        kind: Kind::named(view.kind().byte()).expect("both have the same kinds"),
        dims: view.dims(),
        body: view.body().to_vec(),
        readings: view.readings(),
    }
}

fn shown(found: fulandewu::Found) -> Shown {
    Shown {
        dims: found.view.dims(),
        body: found.view.body().to_vec(),
        next: found.next,
    }
}

/// The refusal of a request with one blob.
fn refused(refusal: fulandewu::Refusal) -> Refused {
    let carried = refusal.entry().or(refusal.needed()).or(refusal.place());
    let number = refusal.number() as u8;
    Refusal { number, carried }.into()
}

/// The refusal of a request with several blobs.
fn naming(refusal: fulandewu::Refusal) -> Refused {
    let blob = match refusal.which() {
        Some(Which::Probe) => 'p',
        Some(Which::First) => 'a',
        Some(Which::Second) => 'b',
        None => '-',
    };
    let blob = Some(blob);
    Refused {
        blob,
        ..refused(refusal)
    }
}

fn vector_type(kind: Kind) -> VectorType {
    VectorType::named(kind as u8).expect("both have the same kinds")
}

fn distance(measure: Measure) -> Distance {
    match measure {
        Measure::Cos => Distance::Cos,
        Measure::L2 => Distance::L2,
        Measure::Dot => Distance::Dot,
        Measure::Jac => Distance::Jaccard,
    }
}
