//! The commands of the benchmark; docs/BENCHMARKS.md says how they are used.

use std::ffi::OsStr;
use std::fs;
use std::hint::black_box;
use std::process::ExitCode;

use bench::compare::both;
use bench::plot::grouped;
use bench::scaling;
use bench::sides::{SIDES, Side, buffer};
use bench::stack;
use bench::time::{Pair, best, pairs, quartiles};
use bench::workloads::{SIZES, WORKLOADS, Workload};
use oracle::command::{number, with_arguments};

const USAGE: &str = "usage: bench check
       bench list
       bench time REPETITIONS
       bench stack
       bench plot REPETITIONS FILE
       bench one SIDE WORKLOAD N RUNS";

fn main() -> ExitCode {
    with_arguments("bench", |arguments| {
        run(arguments).map(|()| ExitCode::SUCCESS)
    })
}

fn run(arguments: &[&OsStr]) -> Result<(), String> {
    let (command, rest) = arguments.split_first().ok_or(USAGE)?;
    match (command.to_str(), rest) {
        (Some("check"), []) => check(),
        (Some("list"), []) => {
            list();
            Ok(())
        }
        (Some("time"), [repetitions]) => time(number(repetitions)?),
        (Some("stack"), []) => {
            stack();
            Ok(())
        }
        (Some("plot"), [repetitions, file]) => {
            let svg = scaling::plot(number(repetitions)?)?;
            fs::write(file, svg).map_err(|error| error.to_string())
        }
        (Some("one"), [side, workload, size, runs]) => {
            one(side, workload, number(size)?, number(runs)?)
        }
        _ => Err(USAGE.into()),
    }
}

/// Every workload at each of its sizes.
fn each() -> impl Iterator<Item = (&'static Workload, usize)> {
    WORKLOADS
        .iter()
        .flat_map(|workload| workload.sizes().map(move |size| (workload, size)))
}

/// Compares both sides on every sheet that is timed.
fn check() -> Result<(), String> {
    let mut sheets = 0;
    for (workload, size) in each() {
        both(&workload.sheet(size))
            .map_err(|error| format!("{} {size}: {error}", workload.name))?;
        sheets += 1;
    }
    for sheet in scaling::sheets() {
        both(&sheet)?;
        sheets += 1;
    }
    println!("bench: {sheets} sheets, the same five numbers and transcripts on both sides");
    Ok(())
}

/// The workloads and sizes, one on a line.
fn list() {
    for (workload, size) in each() {
        println!("{} {size}", workload.name);
    }
}

/// The table of times.
fn time(repetitions: usize) -> Result<(), String> {
    println!(
        "| workload | N | sheet, bytes | transcript, bytes | events | port, µs | Rust, µs \
         | port / Rust: median | quartiles | of the best |"
    );
    println!("|---|--:|--:|--:|--:|--:|--:|--:|--:|--:|");
    for (workload, size) in each() {
        let sheet = workload.sheet(size);
        let answer = both(&sheet)?;
        let pairs = pairs(&sheet, repetitions);
        println!(
            "| {} | {size} | {} | {} | {} | {} |",
            workload.name,
            grouped(sheet.len() as f64),
            grouped(answer.written as f64),
            grouped(answer.settled as f64),
            times(&pairs),
        );
    }
    Ok(())
}

/// The columns of times and ratios.
fn times(pairs: &[Pair]) -> String {
    let port = best(pairs.iter().map(|pair| pair.port));
    let rust = best(pairs.iter().map(|pair| pair.rust));
    let [low, median, high] = quartiles(pairs.iter().map(|pair| pair.port / pair.rust));
    format!(
        "{:.1} | {:.1} | {median:.2} | {low:.2} to {high:.2} | {:.2}",
        port / 1_000.0,
        rust / 1_000.0,
        port / rust
    )
}

/// The table of stacks: the most that a workload needs at each size.
fn stack() {
    println!("| N | port, bytes | Rust, bytes |\n|--:|--:|--:|");
    for size in SIZES {
        let sheets: Vec<Vec<u8>> = each()
            .filter(|(_, other)| *other == size)
            .map(|(workload, size)| workload.sheet(size))
            .collect();
        let [port, rust] = SIDES.map(|side| {
            let needed = sheets.iter().map(|sheet| stack::needed(side, sheet));
            grouped(needed.max().unwrap_or(0) as f64)
        });
        println!("| {size} | {port} | {rust} |");
    }
}

/// One side alone, so often; for callgrind.
fn one(side: &OsStr, workload: &OsStr, size: usize, runs: usize) -> Result<(), String> {
    let side = side.to_str().and_then(Side::named).ok_or("no such side")?;
    let workload = workload.to_str().and_then(Workload::named);
    let sheet = workload.ok_or("no such workload")?.sheet(size);
    let mut out = buffer();
    for _ in 0..runs {
        black_box(side.run(black_box(&sheet), black_box(&mut out)));
    }
    Ok(())
}
