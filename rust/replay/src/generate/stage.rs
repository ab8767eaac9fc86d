//! Settings for a scene and buffers that fit them.

use super::draft::Draft;
use super::random::Random;
use crate::buffers::Name;
use crate::fields::Fields;
use crate::layout::{Layout, LAST_TICK};

/// P, S, L and E of a scene.
#[derive(Clone, Copy, Debug)]
pub struct Stage {
    pub layout: Layout,
    pub capacity: u64,
}

impl Stage {
    /// Settings as recordings have them: mostly small, at times at their limits.
    pub fn common(random: &mut Random) -> Stage {
        let page_size = *random.pick(&[512, 512, 512, 512, 512, 1024, 2048, 4096]);
        let slot_count = match random.below(12) {
            0..=2 => 1,
            3..=6 => 2,
            7..=10 => random.between(3, 5),
            _ if page_size == 512 => 16,
            _ => 2,
        };
        let lag = *random.pick(&[3, 3, 3, 4, 5, 8]);
        let capacity =
            if random.one_in(8) { random.between(1, 3) } else { slot_count + random.between(2, 8) };
        Stage { layout: Layout { page_size, slot_count, lag }, capacity }
    }

    /// Settings with more pages than an index has entries.
    pub fn roomy(random: &mut Random) -> Stage {
        let (slot_count, lag) = (random.between(1, 3), random.between(3, 4));
        let layout = Layout { page_size: *random.pick(&[512, 512, 512, 1024]), slot_count, lag };
        Stage { layout, capacity: layout.index_entries() + random.between(4, 6) }
    }

    /// A state without anything in it.
    pub fn fields(&self) -> Fields {
        let Layout { page_size, slot_count, lag } = self.layout;
        Fields { page_size, slot_count, lag, capacity: self.capacity, ..Fields::default() }
    }

    /// The words of an open with these settings.
    pub fn open_line(&self, end: u64, tick: u64) -> String {
        let Layout { page_size, slot_count, lag } = self.layout;
        format!("open {page_size} {slot_count} {lag} {} {end} {tick}", self.capacity)
    }

    /// New buffers, just long enough or a little longer, and kinds of which most are metadata.
    pub fn make_buffers(&self, draft: &mut Draft) {
        let layout = self.layout;
        let lengths = [
            (Name::Base, self.capacity * layout.page_size),
            (Name::Side, layout.side_length()),
            (Name::Pages, layout.pages_length()),
            (Name::Kinds, self.capacity),
            (Name::Held, layout.held_length()),
            (Name::Marks, self.capacity),
        ];
        let longer = draft.random.one_in(2);
        for (name, needed) in lengths {
            let length = if longer { needed + draft.random.between(1, 40) } else { needed };
            let seed = draft.random.below(256);
            draft.prepare(format!("buffer {} {length} {seed}", name.word()));
        }
        let kinds: Vec<u8> = (0..self.capacity).map(|_| u8::from(draft.random.one_in(5))).collect();
        draft.poke(Name::Kinds, 0, &kinds);
    }
}

/// A starting tick: often 0, at times near the last.
pub fn starting_tick(random: &mut Random) -> u64 {
    match random.below(8) {
        0..=3 => 0,
        4..=5 => random.between(1, 1000),
        6 => random.below(LAST_TICK),
        _ => LAST_TICK - random.below(12),
    }
}
