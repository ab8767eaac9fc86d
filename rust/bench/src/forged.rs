//! Recorder worlds made by hand: every slot taken and any number of entries, as the state rules allow. A recording reaches
//! such states too; here they stand at once. P and E are the caller's, S = 16, L = 8.

use plain::{ledger_length, side_length, Lent, Settings, Slots, State};

pub const SLOTS: u32 = 16;
const LAG: u32 = 8;
const CLOSED: u32 = 20;
const ENTRY_ROW: usize = 20;

/// Whether the pages in the slots are owed, which keeps them there.
#[derive(Clone, Copy, PartialEq, Eq)]
pub enum Slotted {
    Owed,
    Clean,
}

#[derive(Clone)]
pub struct World {
    pub state: State,
    pub ledger: Vec<u8>,
    pub base: Vec<u8>,
    pub side: Vec<u8>,
    pub pages: Vec<u8>,
    pub kinds: Vec<u8>,
}

impl World {
    /// Pages 0 to 15 lie in the slots; entry i is of page i, in place i. The file has one page less than fits.
    pub fn new(page_size: u32, capacity: u32, entries: u32, slotted: Slotted) -> World {
        let settings = Settings { page_size, slots: SLOTS, lag: LAG, capacity };
        let size = page_size as usize;
        World {
            state: state(settings, entries),
            ledger: ledger(settings, entries, slotted),
            base: vec![0; capacity as usize * size],
            side: vec![0; side_length(settings)],
            pages: (0..SLOTS as usize * size).map(|i| (i * 7 + i / 251) as u8).collect(),
            kinds: vec![0; capacity as usize],
        }
    }

    pub fn lent(&mut self) -> Lent<'_> {
        Lent {
            ledger: &mut self.ledger,
            base: &mut self.base,
            side: &mut self.side,
            pages: &mut self.pages,
            kinds: &mut self.kinds,
        }
    }
}

fn state(settings: Settings, entries: u32) -> State {
    let mut slots = Slots { used: SLOTS, ..Slots::default() };
    for slot in 0..SLOTS {
        slots.pages[slot as usize] = slot;
        slots.order[slot as usize] = slot;
    }
    State { settings, end: settings.capacity - 1, closed: CLOSED, entries, slots, ..State::default() }
}

/// The last changes lie as far back as an entry can, the slots' own are the newest.
fn ledger(settings: Settings, entries: u32, slotted: Slotted) -> Vec<u8> {
    let mut ledger = vec![0; ledger_length(settings)];
    for (i, row) in (0..entries).zip(ledger.chunks_mut(ENTRY_ROW)) {
        let owed = slotted == Slotted::Owed && i < SLOTS;
        let entered = if owed { CLOSED } else { 1 };
        let last_change = CLOSED - i / SLOTS;
        for (number, at) in [i, i, last_change, 0, entered].into_iter().zip(row.chunks_mut(4)) {
            at.copy_from_slice(&number.to_le_bytes());
        }
    }
    ledger
}
