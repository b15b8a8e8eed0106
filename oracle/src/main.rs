//! `oracle answer` answers lines as our programs must; `oracle gen` makes lines.

use std::io::{self, BufRead, BufWriter, Write};
use std::process::ExitCode;

use oracle::generate;
use oracle::lines::Program;
use oracle::oracle::Oracle;

const USAGE: &str = "usage: oracle answer vecdist|vecprobe < lines
       oracle gen MODE SEED COUNT, with MODE one of
           dist read strict write conv near fvecs bvecs append rounding short";

fn main() -> ExitCode {
    let arguments: Vec<String> = std::env::args().skip(1).collect();
    let arguments: Vec<&str> = arguments.iter().map(String::as_str).collect();
    match run(&arguments) {
        Some(Ok(true)) => ExitCode::SUCCESS,
        Some(Ok(false)) => ExitCode::FAILURE,
        Some(Err(error)) => {
            eprintln!("oracle: {error}");
            ExitCode::from(2)
        }
        None => {
            eprintln!("{USAGE}");
            ExitCode::from(2)
        }
    }
}

/// Nothing for arguments that are not understood.
fn run(arguments: &[&str]) -> Option<io::Result<bool>> {
    match *arguments {
        ["answer", program] => Some(answer(Program::named(program)?)),
        ["gen", mode, seed, count] => {
            let (seed, count) = (seed.parse().ok()?, count.parse().ok()?);
            let lines = generate::lines(mode, seed)?;
            Some(print(lines, seed, count))
        }
        _ => None,
    }
}

/// Answers the lines of standard input; false if the Rust parted from the rules anywhere.
fn answer(program: Program) -> io::Result<bool> {
    let mut input = io::stdin().lock();
    let mut output = BufWriter::new(io::stdout().lock());
    let mut oracle = Oracle::default();
    let mut agreed = true;
    let mut line = Vec::new();
    for number in 1u64.. {
        line.clear();
        if input.read_until(b'\n', &mut line)? == 0 {
            break;
        }
        let line = line.strip_suffix(b"\n").unwrap_or(&line);
        writeln!(output, "{number}\t{}", program.answer(line, &mut oracle))?;
        for finding in oracle.take_findings() {
            agreed = false;
            let line = String::from_utf8_lossy(line);
            eprintln!("MISMATCH in line {number}: {line:.400}: {finding:.400}");
        }
    }
    output.flush()?;
    Ok(agreed)
}

/// Prints so many lines; the last has no newline where the seed is odd.
fn print(lines: impl Iterator<Item = Vec<u8>>, seed: u64, count: usize) -> io::Result<bool> {
    let mut output = BufWriter::new(io::stdout().lock());
    for (place, line) in lines.take(count).enumerate() {
        if place > 0 {
            output.write_all(b"\n")?;
        }
        output.write_all(&line)?;
    }
    if count > 0 && seed.is_multiple_of(2) {
        output.write_all(b"\n")?;
    }
    output.flush()?;
    Ok(true)
}
