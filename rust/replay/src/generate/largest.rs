//! The largest settings with the index and the places full to the last: states at and just past the
//! room of a close, and a desk that takes what the close leaves.

use super::draft::Draft;
use super::good_state::{good_state, Crowd, Wish};
use super::stage::Stage;
use crate::buffers::Name;
use crate::layout::Layout;

const LARGEST: Layout = Layout { page_size: 512, slot_count: 16, lag: 8 };
/// Pages beyond one for each entry, so that the slots can hold others.
const MORE_PAGES: u64 = 40;

pub fn play(draft: &mut Draft) {
    draft.comment("the largest settings");
    let stage = Stage { layout: LARGEST, capacity: LARGEST.index_entries() + MORE_PAGES };
    stage.make_buffers(draft);
    let kinds = vec![0; stage.capacity as usize];
    draft.poke(Name::Kinds, 0, &kinds);
    for over in [false, true] {
        for crowd in [Crowd::Entries { over }, Crowd::Places { over }] {
            let wish = Wish { crowd, ..Wish::default() };
            let fields = good_state(&mut draft.random, &stage, &kinds, wish);
            draft.state(&fields);
            draft.call("close");
            draft.call("take");
            let page = draft.random.below(stage.capacity);
            draft.call(format!("deskread {page} 0 4"));
        }
    }
    draft.call("refresh");
}
