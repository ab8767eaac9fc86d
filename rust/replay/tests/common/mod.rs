//! What several tests share.
#![allow(dead_code)]

use std::path::PathBuf;

use replay::fields::Fields;
use replay::run::{Machine, Reply, World};
use replay::script::{self, Call, Item};
use replay::version::{self, Version};

pub fn plain() -> Version {
    version::named("plain").expect("the plain version")
}

pub fn proved() -> Version {
    version::named("proved").expect("the proved version")
}

pub fn both() -> [Version; 2] {
    [plain(), proved()]
}

pub fn scripts_folder() -> PathBuf {
    [env!("CARGO_MANIFEST_DIR"), "scripts"].iter().collect()
}

/// The text of a file in scripts/.
pub fn script_file(name: &str) -> String {
    let path = scripts_folder().join(name);
    std::fs::read_to_string(&path).unwrap_or_else(|error| panic!("{}: {error}", path.display()))
}

/// One call of a script, with everything before and after it.
pub struct Played {
    pub line: usize,
    pub call: Call,
    pub before: World,
    pub reply: Reply,
    pub after: World,
}

impl Played {
    /// The recorder's state after the call.
    pub fn fields(&self) -> Fields {
        self.after.recorder.fields().expect("a state")
    }

    pub fn side(&self) -> &[u8] {
        self.after.buffers.side.whole()
    }

    pub fn base(&self) -> &[u8] {
        self.after.buffers.base.whole()
    }

    /// The pages of the base that the call changed.
    pub fn base_pages_written(&self) -> Vec<usize> {
        let size = self.fields().page_size as usize;
        let was = self.before.buffers.base.whole();
        let changed = |page: &usize| {
            was[page * size..(page + 1) * size] != self.base()[page * size..(page + 1) * size]
        };
        (0..was.len() / size).filter(changed).collect()
    }
}

/// Plays a script and shows each call.
pub fn each_call(text: &str, mut show: impl FnMut(Played)) {
    let mut machine = Machine::new(plain());
    for line in script::parse(text).expect("a script") {
        if let Item::Call(call) = line.item {
            let before = machine.world.clone();
            let reply = machine.call(&call);
            show(Played { line: line.number, call, before, reply, after: machine.world.clone() });
        } else {
            machine.play(&line.item).expect("a line that can be played");
        }
    }
}

/// All calls of a file in scripts/.
pub fn played(name: &str) -> Vec<Played> {
    let mut calls = Vec::new();
    each_call(&script_file(name), |call| calls.push(call));
    calls
}
