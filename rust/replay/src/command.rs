//! The command line of `replay`: its words, the files it reads, and its exit status.

use std::io::{self, BufWriter, Read, Write};
use std::process::ExitCode;

use crate::compare::{self, Named, Outcome};
use crate::coverage::{self, Tally};
use crate::generate::generate;
use crate::output::{self, Stop};
use crate::version::{self, Version};

pub const USAGE: &str = "usage: replay [--on VERSION] FILE
       replay [--on VERSION] --coverage FILE...
       replay --generate SEED CALLS
       replay --compare FILE...
       replay --compare --generate SEED CALLS
--compare plays on both versions and stops at the first difference.
FILE is a call script, - for standard input. VERSION is plain (the default) or proved.";

const NOT_UNDERSTOOD: &str =
    "the words after the program's name are not understood; --help tells them";

/// Does what the words ask. An error is one line for the standard error stream.
pub fn run(words: &[String]) -> Result<ExitCode, String> {
    let words: Vec<&str> = words.iter().map(String::as_str).collect();
    match words.as_slice() {
        ["--on", name, rest @ ..] => on(version::named(name)?, rest),
        ["--generate", seed, calls] => print_text(&generated(seed, calls)?),
        ["--compare", rest @ ..] => print_comparison(rest),
        ["--help"] => {
            println!("{USAGE}");
            Ok(ExitCode::SUCCESS)
        }
        rest => on(version::named("plain")?, rest),
    }
}

fn on(version: Version, words: &[&str]) -> Result<ExitCode, String> {
    match words {
        ["--coverage", files @ ..] if !files.is_empty() => print_coverage(version, files),
        [file] if !file.starts_with("--") => print_replay(version, file),
        _ => Err(NOT_UNDERSTOOD.to_string()),
    }
}

fn print_replay(version: Version, file: &str) -> Result<ExitCode, String> {
    let text = script_text(file)?;
    let mut out = BufWriter::new(io::stdout().lock());
    let end = output::replay(version, &text, &mut out);
    let flushed = out.flush();
    match end.and(flushed.map_err(Stop::Output)) {
        Ok(()) => Ok(ExitCode::SUCCESS),
        Err(Stop::Script(error)) => Err(format!("{file}: {error}")),
        Err(Stop::Output(error)) => written(Err(error)).map(|()| ExitCode::SUCCESS),
    }
}

fn print_coverage(version: Version, files: &[&str]) -> Result<ExitCode, String> {
    let mut tally = Tally::new();
    for file in files {
        let text = script_text(file)?;
        coverage::observe_script(version, &text, &mut tally)
            .map_err(|error| format!("{file}: {error}"))?;
    }
    print_text(&tally.report())?;
    Ok(if tally.missing().is_empty() { ExitCode::SUCCESS } else { ExitCode::from(1) })
}

/// The two versions, on scripts from files or on one made up. The first script on which they differ is the last.
fn print_comparison(words: &[&str]) -> Result<ExitCode, String> {
    match words {
        ["--generate", seed, calls] => {
            print_compared(&format!("seed {seed}"), &generated(seed, calls)?)
        }
        [_, ..] if words.iter().all(|word| !word.starts_with("--")) => {
            for file in words {
                let end = print_compared(file, &script_text(file)?)?;
                if end != ExitCode::SUCCESS {
                    return Ok(end);
                }
            }
            Ok(ExitCode::SUCCESS)
        }
        _ => Err(NOT_UNDERSTOOD.to_string()),
    }
}

fn print_compared(script: &str, text: &str) -> Result<ExitCode, String> {
    let named = |name| Ok::<_, String>(Named { name, version: version::named(name)? });
    let two = [named("plain")?, named("proved")?];
    match compare::compare(two, text).map_err(|error| format!("{script}: {error}"))? {
        Outcome::Same { calls } => print_text(&format!("{script}: {calls} calls, no difference\n")),
        Outcome::Different(difference) => {
            print_text(&format!("{script}: {difference}\n"))?;
            Ok(ExitCode::from(1))
        }
    }
}

fn generated(seed: &str, calls: &str) -> Result<String, String> {
    let seed = seed.parse().map_err(|_| format!("'{seed}' is no seed"))?;
    let calls = calls.parse().map_err(|_| format!("'{calls}' is no number of calls"))?;
    Ok(generate(seed, calls))
}

fn print_text(text: &str) -> Result<ExitCode, String> {
    written(io::stdout().lock().write_all(text.as_bytes()))?;
    Ok(ExitCode::SUCCESS)
}

/// A reader that stopped listening is no error.
fn written(end: io::Result<()>) -> Result<(), String> {
    match end {
        Err(error) if error.kind() != io::ErrorKind::BrokenPipe => {
            Err(format!("standard output: {error}"))
        }
        _ => Ok(()),
    }
}

/// A script's text. Bytes that are no text can only stand in comments.
fn script_text(file: &str) -> Result<String, String> {
    let mut bytes = Vec::new();
    let read = match file {
        "-" => io::stdin().lock().read_to_end(&mut bytes).map(|_| ()),
        _ => std::fs::read(file).map(|read| bytes = read),
    };
    read.map_err(|error| format!("{file}: {error}"))?;
    Ok(String::from_utf8_lossy(&bytes).into_owned())
}
