//! The tables, worst first.

use crate::cases::{Case, DIMS};
use crate::clock::Times;

/// A line for each case.
pub fn list(machine: &str, mut timed: Vec<(&Case, Times)>) {
    timed.sort_by(|(_, a), (_, b)| b.ratio().total_cmp(&a.ratio()));
    let slower = timed.iter().filter(|(_, times)| times.ratio() > 1.0);
    let (slower, all) = (slower.count(), timed.len());
    println!("{machine}: ours is slower in {slower} of {all} cases");
    println!(
        "{:<42} {:>12} {:>12} {:>8}",
        "", "ours, ns", "theirs, ns", "ratio"
    );
    for (case, times) in timed {
        let (case, ratio) = (case.to_string(), times.ratio());
        let Times { ours, theirs } = times;
        println!("{case:<42} {ours:>12.1} {theirs:>12.1} {ratio:>8.2}");
    }
}

/// For a page: a row for what is done, with a column for each dims; by the worst from 128 dims on.
pub fn page(machine: &str, timed: Vec<(&Case, Times)>) {
    // the cases of one dims follow those of another, in the same order
    let works = timed.len() / DIMS.len();
    let mut rows: Vec<Vec<&(&Case, Times)>> = (0..works)
        .map(|row| timed.iter().skip(row).step_by(works).collect())
        .collect();
    let worst = |row: &[&(&Case, Times)]| {
        let large = row.iter().filter(|(case, _)| case.dims >= 128);
        large.map(|(_, times)| times.ratio()).fold(0.0, f64::max)
    };
    rows.sort_by(|a, b| worst(b).total_cmp(&worst(a)));
    println!("{machine}, ours / the Rust in ns\n");
    println!(
        "| |{} |",
        DIMS.map(|dims| format!(" {dims} dims")).join(" |")
    );
    println!("|---{}|", "|--:".repeat(DIMS.len()));
    for row in rows {
        let cells = row.iter().map(|(_, times)| {
            let Times { ours, theirs } = times;
            format!("{ours:.0} / {theirs:.0} = {:.2}", times.ratio())
        });
        let cells: Vec<String> = cells.collect();
        println!("| {} | {} |", row[0].0.title(), cells.join(" | "));
    }
}
