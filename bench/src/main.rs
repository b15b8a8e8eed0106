//! Our archive beside the vector module of turso_core, on the same blobs: the answers are compared,
//! then both are timed. Nothing is timed under an emulator.

// The kit's emulator fails where a program reads its own memory map, as the start of a Rust program
// does, so this one starts as a C program.
#![no_main]

mod cases;
mod clock;
mod files;
mod machine;
mod ours;
mod report;
mod rides;
mod theirs;

// The oracle's: what the six files import, kinds and the writer, aligned blobs, the known differences.
#[path = "../../oracle/src/differences.rs"]
#[allow(dead_code)]
mod differences;
#[path = "../../oracle/src/hex.rs"]
#[allow(dead_code)]
mod hex;
#[path = "../../oracle/src/original.rs"]
#[allow(dead_code)]
mod original;
#[path = "../../oracle/src/generate/random.rs"]
#[allow(dead_code)]
mod random;
#[path = "../../oracle/src/rules.rs"]
#[allow(dead_code)]
mod rules;
#[path = "../../oracle/src/stand_ins.rs"]
mod stand_ins;

/// The six files as published: the build copies them here and changes nothing.
#[rustfmt::skip]
#[allow(dead_code, unstable_name_collisions, clippy::all)]
mod vector {
    pub mod operations {
        pub mod convert;
        pub mod distance_cos;
        pub mod distance_dot;
        pub mod distance_l2;
        pub mod jaccard;
    }
    pub mod vector_types;
}

// The names under which the six files look for what they import.
use stand_ins::{alloc, turso_debug_assert, types, LimboError, Result, ValueBlob};

use cases::Case;

const USAGE: &str = "usage: bench [--markdown]
       bench --list, or --once ours|theirs NUMBER: the cases by number, or one call of one, for bench/model";

#[no_mangle]
pub extern "C" fn main() -> i32 {
    let arguments: Vec<String> = std::env::args().skip(1).collect();
    match arguments.iter().map(String::as_str).collect::<Vec<_>>()[..] {
        [] => return run(false),
        ["--markdown"] => return run(true),
        ["--list"] => {
            for (number, case) in cases::all().iter().enumerate() {
                println!("{number}\t{case}");
            }
            return 0;
        }
        ["--once", side @ ("ours" | "theirs"), number] => {
            let number = number.parse().ok();
            if let Some(case) =
                number.and_then(|number: usize| cases::all().into_iter().nth(number))
            {
                case.once(side == "ours");
                return 0;
            }
        }
        _ => {}
    }
    eprintln!("{USAGE}");
    2
}

/// Compares, then times; the status of the program.
fn run(markdown: bool) -> i32 {
    let cases = cases::all();
    let differences: Vec<String> = cases.iter().filter_map(Case::difference).collect();
    for difference in &differences {
        println!("{difference}");
    }
    println!(
        "{} cases compared, {} differ",
        cases.len(),
        differences.len()
    );
    if !differences.is_empty() {
        return 1;
    }
    if let Some(why) = machine::untimeable() {
        println!("Nothing was timed: {why}.");
        return 0;
    }
    let timed = cases.iter().map(|case| (case, case.time())).collect();
    let print = if markdown { report::page } else { report::list };
    print(&machine::name(), timed);
    0
}
