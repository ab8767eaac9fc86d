//! What the pages hold, told from the accepted calls alone: now, and as it was at each of the last L + 1 closes. Neither
//! version has a part in it.

use std::collections::VecDeque;

use replay::version::Settings;

/// The pages at one close.
pub struct Snapshot {
    pub tick: u32,
    pub end: u32,
    bytes: Vec<u8>,
}

pub struct Model {
    size: usize,
    lag: u32,
    pub end: u32,
    pub closed: u32,
    bytes: Vec<u8>,
    pub kinds: Vec<u8>,
    /// Whether a metadata page changed in the open tick.
    changing: Vec<bool>,
    /// The closed tick in which it changed last, since the open.
    changed: Vec<Option<u32>>,
    snapshots: VecDeque<Snapshot>,
}

impl Model {
    pub fn new(settings: Settings, bytes: Vec<u8>, kinds: Vec<u8>, end: u32, tick: u32) -> Model {
        let mut model = Model {
            size: settings.page_size as usize,
            lag: settings.lag,
            end,
            closed: tick,
            changing: vec![false; kinds.len()],
            changed: vec![None; kinds.len()],
            bytes,
            kinds,
            snapshots: VecDeque::new(),
        };
        model.snap();
        model
    }

    pub fn is_metadata(&self, page: u32) -> bool {
        self.kinds[page as usize] == 0
    }

    fn at(&self, page: u32, offset: u32) -> usize {
        page as usize * self.size + offset as usize
    }

    pub fn span(&self, page: u32, offset: u32, length: u32) -> &[u8] {
        let at = self.at(page, offset);
        &self.bytes[at..at + length as usize]
    }

    pub fn write(&mut self, page: u32, offset: u32, from: &[u8]) {
        let at = self.at(page, offset);
        self.bytes[at..at + from.len()].copy_from_slice(from);
        self.change(page);
    }

    fn change(&mut self, page: u32) {
        self.changing[page as usize] = self.is_metadata(page);
    }

    pub fn grow(&mut self, kind: u8) {
        let at = self.at(self.end, 0);
        self.bytes[at..at + self.size].fill(0);
        self.kinds[self.end as usize] = kind;
        self.change(self.end);
        self.end += 1;
    }

    pub fn close(&mut self) {
        self.closed += 1;
        for (changing, changed) in self.changing.iter_mut().zip(&mut self.changed) {
            if *changing {
                *changed = Some(self.closed);
            }
            *changing = false;
        }
        self.snap();
    }

    fn snap(&mut self) {
        self.snapshots.push_back(Snapshot { tick: self.closed, end: self.end, bytes: self.bytes.clone() });
        if self.snapshots.len() > self.lag as usize + 1 {
            self.snapshots.pop_front();
        }
    }

    pub fn snapshot(&self, tick: u32) -> Option<&Snapshot> {
        self.snapshots.iter().find(|snapshot| snapshot.tick == tick)
    }

    /// The mark that a refresh owes a page below e: 1 if it changed after the held tick.
    pub fn mark(&self, page: u32, held: u32) -> u8 {
        u8::from(self.changed[page as usize].is_some_and(|tick| tick > held))
    }
}

impl Snapshot {
    pub fn span(&self, size: u32, page: u32, offset: u32, length: u32) -> &[u8] {
        let at = page as usize * size as usize + offset as usize;
        &self.bytes[at..at + length as usize]
    }
}
