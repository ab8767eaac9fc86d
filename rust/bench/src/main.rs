//! The measurements, as ratios: the proved code beside the plain Rust version, or beside C, all built for release, in one
//! run. Each time is the lowest of many runs that alternate between the two. A row over its bound says `above`; the last line
//! has the worst ratios. No test depends on any of it.
//!
//!     bench [DOCS [FILE]]
//!
//! With a folder, the ratios are drawn to bench.svg there, and what was printed is put into its BENCH.md. FILE has what
//! another program measured (c/bench/stack.c), which is told before the last line.

mod clock;
mod desk;
mod forged;
mod growth;
mod leaves;
mod ours;
mod page;
mod plot;
mod recorder;
mod side;
mod table;

use std::path::Path;
use std::process::ExitCode;

use table::Table;

fn measured() -> Table {
    let mut table = Table::default();
    table.head();
    leaves::checksum(&mut table);
    leaves::copy(&mut table);
    for n in [16, 144] {
        desk::calls(&mut table, n);
    }
    for n in [0, 16, 144] {
        recorder::judge(&mut table, n);
        recorder::hits(&mut table, n);
        recorder::misses(&mut table, n);
    }
    for n in [0, 144] {
        for changed in [1, 8, 16] {
            recorder::close(&mut table, n, changed);
        }
    }
    recorder::open(&mut table);
    for kind in [0, 1] {
        recorder::grow(&mut table, kind);
    }
    table
}

/// What a file has, told after the table.
fn tell(table: &mut Table, file: &str) -> Result<(), String> {
    let text = std::fs::read_to_string(file).map_err(|error| format!("{file}: {error}"))?;
    for line in text.lines() {
        table.say(line);
    }
    table.say("");
    Ok(())
}

fn keep(table: &Table, docs: &Path) -> Result<(), String> {
    let told = |file: &str, end: std::io::Result<()>| end.map_err(|error| format!("{file}: {error}"));
    told("bench.svg", std::fs::write(docs.join("bench.svg"), plot::svg(table)))?;
    told("BENCH.md", page::renew(&docs.join("BENCH.md"), &table.said))
}

fn run(words: &[String]) -> Result<(), String> {
    let mut table = measured();
    table.say("");
    growth::check(&mut table);
    table.say("");
    if let Some(file) = words.get(1) {
        tell(&mut table, file)?;
    }
    let worst = table.worst();
    table.say(&worst);
    words.first().map_or(Ok(()), |docs| keep(&table, Path::new(docs)))
}

fn main() -> ExitCode {
    let words: Vec<String> = std::env::args().skip(1).collect();
    match run(&words) {
        Ok(()) => ExitCode::SUCCESS,
        Err(error) => {
            eprintln!("bench: {error}");
            ExitCode::FAILURE
        }
    }
}
