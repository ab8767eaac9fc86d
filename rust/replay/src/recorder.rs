//! The recorder's state between the calls of a script: the struct and the ledger as the calls take
//! them, and the way from a state line to them and back to a listing.
//!
//! A state line can name states that struct and ledger cannot hold. Those answer 3 without a call.
//! Others lose something on the way (of a page that stands in two slots the order, kept in pages,
//! cannot say which slot was meant). So what a line named is kept and listed until a call changes
//! the struct or the ledger.

use crate::fields::{Counts, Fields, SLOT_TABLE};
use crate::ledger;
use crate::version::{self, Settings, Slots, State, EMPTY};

/// Struct and ledger, as far as there are any.
#[derive(Clone, Debug, PartialEq, Eq)]
pub struct Recorder {
    pub state: State,
    pub ledger: Vec<u8>,
    origin: Origin,
}

#[derive(Clone, Debug, PartialEq, Eq)]
enum Origin {
    /// No open was accepted and no state line read.
    Nothing,
    /// Calls made struct and ledger what they are.
    Calls,
    /// A state line named it, and struct and ledger were built from it.
    Line(Box<Named>),
    /// A state line named it, and struct and ledger cannot hold it.
    Beyond(Box<Fields>),
}

/// What a state line named, and what was built from it.
#[derive(Clone, Debug, PartialEq, Eq)]
struct Named {
    fields: Fields,
    state: State,
    ledger: Vec<u8>,
}

impl Recorder {
    /// The recorder before any open: the all-zero state, which breaks the state rules.
    pub fn new() -> Recorder {
        Recorder {
            state: State::default(),
            ledger: vec![ledger::FILLER; ledger::LENGTH],
            origin: Origin::Nothing,
        }
    }

    /// Takes over what a state line names.
    pub fn set(&mut self, fields: Fields) {
        match (build_state(&fields), ledger::build(&fields)) {
            (Some(state), Some(ledger)) => {
                (self.state, self.ledger) = (state, ledger.clone());
                self.origin = Origin::Line(Box::new(Named { fields, state, ledger }));
            }
            _ => self.origin = Origin::Beyond(Box::new(fields)),
        }
    }

    /// Takes over the state of an accepted open. The ledger was lent and is written already.
    pub fn opened(&mut self, state: State) {
        self.state = state;
        self.origin = Origin::Calls;
    }

    /// Takes over the state that a call answered.
    pub fn answered(&mut self, state: State) {
        self.state = state;
    }

    /// Whether struct and ledger hold the state; if not, every call but open answers 3.
    pub fn is_expressible(&self) -> bool {
        !matches!(self.origin, Origin::Beyond(_))
    }

    /// The state's fields; none before any open.
    pub fn fields(&self) -> Option<Fields> {
        match &self.origin {
            Origin::Nothing => None,
            Origin::Beyond(fields) => Some(fields.as_ref().clone()),
            Origin::Line(named) if named.state == self.state && named.ledger == self.ledger => {
                Some(named.fields.clone())
            }
            _ => Some(fields_of(&self.state, &self.ledger)),
        }
    }

    /// The canonical listing.
    pub fn listing(&self) -> String {
        self.fields().map_or_else(|| "none".to_string(), |fields| fields.listing())
    }
}

impl Default for Recorder {
    fn default() -> Recorder {
        Recorder::new()
    }
}

fn build_state(fields: &Fields) -> Option<State> {
    Some(State {
        settings: Settings {
            page_size: narrow(fields.page_size)?,
            slots: narrow(fields.slot_count)?,
            lag: narrow(fields.lag)?,
            capacity: narrow(fields.capacity)?,
        },
        end: narrow(fields.end)?,
        closed: narrow(fields.tick)?,
        entries: narrow(fields.entries.len() as u64)?,
        slots: build_slots(fields)?,
        meta: build_counts(&fields.meta)?,
        raw: build_counts(&fields.raw)?,
    })
}

fn narrow(number: u64) -> Option<u32> {
    u32::try_from(number).ok()
}

fn build_slots(fields: &Fields) -> Option<Slots> {
    let filler = u32::from_le_bytes([ledger::FILLER; 4]);
    let mut slots = Slots { pages: [EMPTY; 16], changed: [0; 16], order: [filler; 16], used: 0 };
    if fields.slots.len() > SLOT_TABLE || fields.order.len() > SLOT_TABLE {
        return None;
    }
    for (slot, page) in fields.slots.iter().enumerate() {
        if let Some(page) = *page {
            // The last page number stands for an empty slot, so no slot can hold that page.
            slots.pages[slot] = narrow(page).filter(|&page| page != EMPTY)?;
        }
    }
    for &slot in &fields.changed {
        *slots.changed.get_mut(slot as usize)? = 1;
    }
    for (i, &slot) in fields.order.iter().enumerate() {
        let page = *slots.pages.get(slot as usize)?;
        if page == EMPTY {
            return None;
        }
        slots.order[i] = page;
    }
    slots.used = fields.order.len() as u32;
    Some(slots)
}

fn build_counts(counts: &Counts) -> Option<version::Counts> {
    let [accesses, hits, misses, evictions, bypasses] = *counts;
    Some(version::Counts {
        accesses: narrow(accesses)?,
        hits: narrow(hits)?,
        misses: narrow(misses)?,
        evictions: narrow(evictions)?,
        bypasses: narrow(bypasses)?,
    })
}

fn fields_of(state: &State, ledger: &[u8]) -> Fields {
    let mut fields = Fields {
        page_size: u64::from(state.settings.page_size),
        slot_count: u64::from(state.settings.slots),
        lag: u64::from(state.settings.lag),
        capacity: u64::from(state.settings.capacity),
        end: u64::from(state.end),
        tick: u64::from(state.closed),
        slots: state
            .slots
            .pages
            .iter()
            .map(|&page| Some(u64::from(page)).filter(|_| page != EMPTY))
            .collect(),
        changed: (0..SLOT_TABLE)
            .filter(|&slot| state.slots.changed[slot] != 0)
            .map(|slot| slot as u64)
            .collect(),
        order: order_of(&state.slots),
        meta: counts_of(&state.meta),
        raw: counts_of(&state.raw),
        ..Fields::default()
    };
    fields.entries = ledger::entries(ledger, &fields, state.entries);
    fields.retired = ledger::retired(ledger, &fields);
    fields
}

/// The struct's order names pages, the listing slots. A page without a slot shows as a slot that
/// cannot be.
fn order_of(slots: &Slots) -> Vec<u64> {
    let used = SLOT_TABLE.min(slots.used as usize);
    let slot_of = |page: &u32| slots.pages.iter().position(|held| held == page);
    slots.order[..used]
        .iter()
        .map(|page| slot_of(page).map_or(u64::MAX, |slot| slot as u64))
        .collect()
}

fn counts_of(counts: &version::Counts) -> Counts {
    [counts.accesses, counts.hits, counts.misses, counts.evictions, counts.bypasses].map(u64::from)
}

#[cfg(test)]
mod tests {
    use super::*;
    use crate::state_line;

    const GOOD: &str = "P=512 S=3 L=3 E=9 e=9 tick=9 slots=4,-,7 changed=2 order=2,0 \
                        entries=4:1:9:8:00000001,7:0:7:7:ffffffff retired=3:9,5:8 \
                        meta=1,2,3,4,5 raw=6,7,8,9,4294967295";

    fn named(line: &str) -> Recorder {
        let mut recorder = Recorder::new();
        recorder.set(state_line::parse(line.split_whitespace()).expect("a state"));
        recorder
    }

    #[test]
    fn struct_and_ledger_hold_what_the_line_names() {
        let recorder = named(GOOD);
        assert!(recorder.is_expressible());
        assert_eq!(fields_of(&recorder.state, &recorder.ledger).listing(), GOOD);
        assert_eq!(recorder.state.slots.order[..2], [7, 4]);
        assert_eq!(recorder.state.slots.used, 2);
        assert_eq!(recorder.state.entries, 2);
        // X = 12, so the row of place 3 begins at 20 * 12 + 8 * 3.
        assert_eq!(recorder.ledger[264..272], [1, 0, 0, 0, 9, 0, 0, 0]);
        assert_eq!(
            recorder.ledger[20..40],
            [7, 0, 0, 0, 0, 0, 0, 0, 7, 0, 0, 0, 255, 255, 255, 255, 7, 0, 0, 0]
        );
    }

    #[test]
    fn states_that_nothing_can_hold() {
        let short = "P=512 S=1 L=3 E=9 e=9 tick=9";
        for more in [
            "retired=3:9,3:8",
            "retired=7:9",
            "entries=0:0:0:0:00000000,1:1:0:0:00000000,2:2:0:0:00000000,3:3:0:0:00000000,\
             4:4:0:0:00000000",
            "slots=1 order=0,0,0,0,0,0,0,0,0,0,0,0,0,0,0,0,0",
            "slots=1 order=0,1",
            "slots=1 order=16",
            "slots=4294967295 order=0",
            "slots=1,1,1,1,1,1,1,1,1,1,1,1,1,1,1,1,1",
            "changed=16",
            "meta=0,0,0,0,4294967296",
            "entries=4294967296:0:0:0:00000000",
        ] {
            let line = format!("{short} {more}");
            let recorder = named(&line);
            assert!(!recorder.is_expressible(), "{more}");
            assert!(recorder.listing().contains(more.split(' ').next().unwrap_or("")), "{more}");
        }
        assert!(named("P=512 S=1 L=3 E=9 e=4294967295 tick=4294967295").is_expressible());
    }

    #[test]
    fn settings_beyond_their_limits_are_held_and_listed() {
        for settings in ["P=0 S=0 L=0 E=0", "P=4294967295 S=4294967295 L=4294967295 E=4294967295"] {
            let line = format!("{settings} e=0 tick=0 slots=. changed=. order=.");
            let recorder = named(&line);
            assert!(recorder.is_expressible());
            assert!(fields_of(&recorder.state, &recorder.ledger).listing().starts_with(&line));
        }
    }

    #[test]
    fn a_page_in_two_slots_is_listed_as_named() {
        let line =
            "P=512 S=3 L=3 E=9 e=9 tick=9 slots=4,4 changed=. order=1,0 entries=. retired=. \
                    meta=0,0,0,0,0 raw=0,0,0,0,0";
        let mut recorder = named(line);
        assert_eq!(recorder.listing(), line);
        recorder.state.closed = 10;
        assert!(recorder.listing().contains("order=0,0 "));
    }

    #[test]
    fn before_any_open() {
        assert_eq!(Recorder::new().listing(), "none");
    }
}
