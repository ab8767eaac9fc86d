//! The script that is being written. Every line is played as soon as it is written, so what the
//! lines so far lead to is always at hand.

use super::deck::{Deck, Decks};
use super::random::Random;
use super::{desk, forged, opening, span};
use crate::buffers::Name;
use crate::fields::Fields;
use crate::run::Machine;
use crate::script::{parse_line, Item};
use crate::version;

pub struct Draft {
    text: String,
    machine: Machine,
    pub random: Random,
    pub decks: Decks,
    left: u64,
    undo: Vec<String>,
}

impl Draft {
    pub fn new(seed: u64, calls: u64) -> Draft {
        let version = version::named("plain").expect("the plain version is always there");
        Draft {
            text: String::new(),
            machine: Machine::new(version),
            random: Random::new(seed),
            decks: Decks {
                recorder: Deck::new(forged::all_hands()),
                rules: Deck::new(forged::all_rules()),
                shorts: Deck::new(forged::all_shorts()),
                desk: Deck::new(desk::all_hands()),
                faults: Deck::new(desk::all_faults()),
                opens: Deck::new(opening::all_hands()),
                settings: Deck::new(opening::all_settings()),
                read_spans: Deck::new(span::all_outside()),
                write_spans: Deck::new(span::all_outside()),
                desk_spans: Deck::new(span::all_outside()),
            },
            left: calls,
            undo: Vec::new(),
        }
    }

    /// Whether all calls are made. From then on nothing is written any more.
    pub fn is_full(&self) -> bool {
        self.left == 0
    }

    pub fn into_text(self) -> String {
        self.text
    }

    pub fn comment(&mut self, text: &str) {
        if !self.is_full() {
            self.text += &format!("# {text}\n");
        }
    }

    /// Writes a line that prepares.
    pub fn prepare(&mut self, line: impl AsRef<str>) {
        self.write(line.as_ref());
    }

    /// Writes a call: its answer, or none if all calls are made.
    pub fn call(&mut self, line: impl AsRef<str>) -> Option<u32> {
        self.write(line.as_ref())
    }

    fn write(&mut self, line: &str) -> Option<u32> {
        if self.is_full() {
            return None;
        }
        let item = parse_line(line).unwrap_or_else(|error| panic!("'{line}': {error}"))?;
        self.text += line;
        self.text.push('\n');
        if matches!(item, Item::Call(_)) {
            self.left -= 1;
        }
        let reply = self.machine.play(&item).unwrap_or_else(|error| panic!("'{line}': {error}"));
        reply.map(|reply| reply.number)
    }

    /// The recorder's state; the all-zero one before any open.
    pub fn fields(&self) -> Fields {
        self.machine.world.recorder.fields().unwrap_or_default()
    }

    pub fn state(&mut self, fields: &Fields) {
        self.prepare(format!("state {}", fields.naming()));
    }

    /// The whole bytes of a buffer.
    pub fn bytes(&self, name: Name) -> &[u8] {
        self.machine.world.buffers.get(name).whole()
    }

    pub fn poke(&mut self, name: Name, offset: usize, data: &[u8]) {
        if !data.is_empty() {
            self.prepare(format!("poke {} {offset} {}", name.word(), hex(data)));
        }
    }

    /// Pokes bytes that `undo` puts back.
    pub fn poke_for_now(&mut self, name: Name, offset: usize, data: &[u8]) {
        let rest = self.bytes(name).get(offset..).unwrap_or(&[]);
        if let Some(was) = rest.get(..data.len()) {
            self.undo.push(format!("poke {} {offset} {}", name.word(), hex(was)));
            self.poke(name, offset, data);
        }
    }

    /// Lends the first bytes of a buffer, as far as there are so many, until `undo`.
    pub fn lend_for_now(&mut self, name: Name, length: u64) {
        if length <= self.bytes(name).len() as u64 {
            self.undo.push(format!("lend {} all", name.word()));
            self.prepare(format!("lend {} {length}", name.word()));
        }
    }

    /// Whether something was done for now.
    pub fn has_undo(&self) -> bool {
        !self.undo.is_empty()
    }

    /// Takes back what was done for now, the last first.
    pub fn undo(&mut self) {
        while let Some(line) = self.undo.pop() {
            self.prepare(line);
        }
    }
}

/// Bytes as hex.
pub fn hex(data: &[u8]) -> String {
    data.iter().map(|byte| format!("{byte:02x}")).collect()
}
