//! The output of a replay: one line for each call, with its answer and the digests of everything
//! after it.

use std::io::{self, Write};

use crate::buffers::Name;
use crate::crc::crc32;
use crate::run::{Handed, Machine, Reply, World};
use crate::script::{self, Call, Item, ScriptError};
use crate::version::Version;

/// Why a replay stopped.
#[derive(Debug)]
pub enum Stop {
    Script(ScriptError),
    Output(io::Error),
}

impl From<ScriptError> for Stop {
    fn from(error: ScriptError) -> Stop {
        Stop::Script(error)
    }
}

impl From<io::Error> for Stop {
    fn from(error: io::Error) -> Stop {
        Stop::Output(error)
    }
}

/// Plays a script and writes its output lines.
pub fn replay(version: Version, text: &str, out: &mut dyn Write) -> Result<(), Stop> {
    let mut machine = Machine::new(version);
    for line in script::parse(text)? {
        let reply = machine
            .play(&line.item)
            .map_err(|message| ScriptError { line: line.number, message })?;
        if let (Item::Call(call), Some(reply)) = (&line.item, reply) {
            writeln!(out, "{}", output_line(line.number, call, &reply, &machine.world))?;
        }
    }
    Ok(())
}

/// The output line of a call, without its line feed.
pub fn output_line(number: usize, call: &Call, reply: &Reply, after: &World) -> String {
    let Reply { number: answer, handed, .. } = reply;
    let handed = match handed {
        Handed::Nothing => String::new(),
        Handed::Dest(dest) => format!(" dest={:08x}", crc32(dest)),
        Handed::Found { source, offset, bytes } => {
            format!(" {source} {offset} bytes={:08x}", crc32(bytes))
        }
    };
    format!("{number} {} {answer}{handed} {}", call.word(), digests(after))
}

/// The seven digests that end an output line.
pub fn digests(world: &World) -> String {
    let mut parts: Vec<String> = Name::ALL
        .into_iter()
        .map(|name| format!("{}={:08x}", name.word(), crc32(world.buffers.get(name).whole())))
        .collect();
    parts.push(format!("state={:08x}", crc32(world.recorder.listing().as_bytes())));
    parts.join(" ")
}
