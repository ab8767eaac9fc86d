//! Both versions without end: made-up call scripts, and long recordings with desks at every lag. What they differ in ends it
//! with exit status 1; a time limit or Ctrl-C ends it with a summary.
//!
//!     soak [--seconds N] [--seed N]

mod both;
mod desks;
mod fill;
mod model;
mod random;
mod recording;
mod stop;
mod tally;

use std::process::ExitCode;
use std::time::Duration;

use replay::compare::{compare, Named, Outcome};
use replay::generate::generate;
use replay::version::{self, Settings};

use stop::Stop;
use tally::Tally;

const SCRIPTS_A_ROUND: u64 = 20;
const CALLS_A_SCRIPT: u64 = 1000;
const CALLS_A_RECORDING: u64 = 100_000;

/// Where S is at least L, X entries and M places can be reached; the pages are enough for it. The others are the narrow ones.
const SETTINGS: [Settings; 8] = [
    of(512, 16, 8, 200),
    of(512, 3, 3, 24),
    of(1024, 8, 8, 100),
    of(512, 1, 3, 5),
    of(2048, 8, 5, 80),
    of(512, 2, 8, 24),
    of(512, 16, 3, 110),
    of(4096, 6, 4, 50),
];

const fn of(page_size: u32, slots: u32, lag: u32, capacity: u32) -> Settings {
    Settings { page_size, slots, lag, capacity }
}

/// The versions that are compared.
pub fn versions() -> Result<[Named; 2], String> {
    let named = |name| Ok::<_, String>(Named { name, version: version::named(name)? });
    Ok([named("plain")?, named("proved")?])
}

fn scripts(first: u64, stop: &Stop, tally: &mut Tally) -> Result<(), String> {
    for seed in first..first + SCRIPTS_A_ROUND {
        if stop.is_due() {
            break;
        }
        match compare(versions()?, &generate(seed, CALLS_A_SCRIPT)) {
            Ok(Outcome::Same { calls }) => tally.script(calls as u64),
            Ok(Outcome::Different(difference)) => return Err(format!("script of seed {seed}: {difference}")),
            Err(error) => return Err(format!("script of seed {seed}: {error}")),
        }
        tally.progress();
    }
    Ok(())
}

fn rounds(mut seed: u64, stop: &Stop, tally: &mut Tally) -> Result<(), String> {
    for settings in SETTINGS.into_iter().cycle() {
        scripts(seed, stop, tally)?;
        if stop.is_due() {
            break;
        }
        recording::play(settings, seed, CALLS_A_RECORDING, stop, tally)
            .map_err(|error| format!("recording of seed {seed}, {settings:?}: {error}"))?;
        seed += SCRIPTS_A_ROUND;
    }
    Ok(())
}

/// The numbers behind the two words, and nothing else.
fn arguments() -> Result<(Option<Duration>, u64), String> {
    let mut limit = None;
    let mut seed = 1;
    let mut words = std::env::args().skip(1);
    while let Some(word) = words.next() {
        let number = words.next().and_then(|number| number.parse().ok());
        match (word.as_str(), number) {
            ("--seconds", Some(seconds)) => limit = Some(Duration::from_secs(seconds)),
            ("--seed", Some(number)) => seed = number,
            _ => return Err("usage: soak [--seconds N] [--seed N]".to_string()),
        }
    }
    Ok((limit, seed))
}

fn main() -> ExitCode {
    let (limit, seed) = match arguments() {
        Ok(arguments) => arguments,
        Err(usage) => {
            eprintln!("{usage}");
            return ExitCode::from(2);
        }
    };
    let mut tally = Tally::new();
    let end = rounds(seed, &Stop::after(limit), &mut tally);
    tally.summary(end.as_ref().err());
    if end.is_ok() {
        ExitCode::SUCCESS
    } else {
        ExitCode::FAILURE
    }
}
