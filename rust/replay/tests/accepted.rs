//! What must hold after every accepted call, whatever the state it was given: bytes that no call
//! may write are as they were, the state rules hold, what a close leaves can be taken, and the
//! counts add up.

mod common;

use common::{each_call, plain, Played};
use replay::fields::{Fields, ACCESSES, BYPASSES, EVICTIONS, HITS, MISSES};
use replay::generate::generate;
use replay::judge::{broken, broken_by_kinds, needs};
use replay::layout::LAST_COUNT;
use replay::ledger;
use replay::script::Call;
use replay::sidelist::sidelist;

fn each_accepted(seeds: std::ops::Range<u64>, mut check: impl FnMut(&Played, &str)) {
    for seed in seeds {
        each_call(&generate(seed, 1500), |played| {
            if played.reply.number == 0 {
                let place = format!("seed {seed}, line {}, {:?}", played.line, played.call);
                check(&played, &place);
            }
        });
    }
}

fn is_of_desk(call: &Call) -> bool {
    matches!(call, Call::Take | Call::Refresh | Call::DeskRead { .. })
}

#[test]
fn the_rest_of_a_longer_slice_is_not_written() {
    each_accepted(300..302, |played, place| {
        let (before, after) = (&played.before.buffers, &played.after.buffers);
        if is_of_desk(&played.call) {
            assert!(
                before.base == after.base
                    && before.side == after.side
                    && before.pages == after.pages,
                "{place}"
            );
            assert!(before.kinds == after.kinds, "{place}");
            return;
        }
        assert!(before.held == after.held && before.marks == after.marks, "{place}");
        for (name, needed) in needs(&played.fields()) {
            let (was, is) = (before.get(name).whole(), after.get(name).whole());
            assert!(was[needed as usize..] == is[needed as usize..], "{place}");
        }
    });
}

/// Between the index and the first image place lie bytes that belong to neither.
#[test]
fn the_gap_before_the_images_is_not_written() {
    each_accepted(303..305, |played, place| {
        if is_of_desk(&played.call) {
            return;
        }
        let layout = played.fields().layout();
        let gap = layout.held_length() as usize..layout.image_offset(0) as usize;
        let was = &played.before.buffers.side.whole()[gap.clone()];
        assert!(*was == played.side()[gap], "{place}");
    });
}

#[test]
fn the_state_rules_hold_afterwards() {
    each_accepted(306..308, |played, place| {
        if !is_of_desk(&played.call) {
            let fields = played.fields();
            assert_eq!(broken(&fields), [], "{place}");
            assert_eq!(broken_by_kinds(&fields, played.after.buffers.kinds.lent()), [], "{place}");
        }
    });
}

/// The side file lists the state's own entries.
#[test]
fn what_the_recorder_closes_can_be_taken() {
    each_accepted(309..311, |played, place| {
        if matches!(played.call, Call::Open { .. } | Call::Close) {
            let fields = played.fields();
            let mut listing = format!(
                "tick {} end {} entries {}\n",
                fields.tick,
                fields.end,
                fields.entries.len()
            );
            for entry in &fields.entries {
                listing += &format!("{} {} {}\n", entry.page, entry.place, entry.last_change);
            }
            assert_eq!(sidelist(plain(), played.side()), listing, "{place}");
        }
    });
}

/// After a close the ledger has zeros in the rows of no entry and of no retired place.
#[test]
fn a_close_leaves_zeros_in_spare_rows() {
    each_accepted(312..314, |played, place| {
        if played.call != Call::Close {
            return;
        }
        let fields = played.fields();
        let (rows, places) = (ledger::entry_rows(&fields), ledger::place_rows(&fields));
        let bytes = &played.after.recorder.ledger;
        assert!(
            bytes[20 * fields.entries.len()..20 * rows].iter().all(|&byte| byte == 0),
            "{place}"
        );
        for place_row in 0..places {
            let row = &bytes[20 * rows + 8 * place_row..][..8];
            let retired = fields.retired.iter().any(|retired| retired.place == place_row as u64);
            assert!(retired || row.iter().all(|&byte| byte == 0), "{place}");
        }
    });
}

#[test]
fn the_counts_add_up() {
    each_accepted(314..316, |played, place| {
        if is_of_desk(&played.call) {
            return;
        }
        if matches!(played.call, Call::Open { .. }) {
            assert_eq!((played.fields().meta, played.fields().raw), ([0; 5], [0; 5]), "{place}");
            return;
        }
        let given = played.before.recorder.fields().expect("a state");
        let (meta, raw) = raised(played, &given);
        assert_eq!(played.fields().meta, plus(given.meta, meta), "{place}");
        assert_eq!(played.fields().raw, plus(given.raw, raw), "{place}");
    });
}

fn plus(counts: [u64; 5], more: [u64; 5]) -> [u64; 5] {
    std::array::from_fn(|i| (counts[i] + more[i]).min(LAST_COUNT))
}

/// What the call adds to the counts, by what it did to the slots.
fn raised(played: &Played, given: &Fields) -> ([u64; 5], [u64; 5]) {
    let left = played.fields();
    let (mut meta, mut raw) = ([0; 5], [0; 5]);
    let gone = given.slots.iter().flatten().filter(|&&page| left.slot_of(page).is_none()).count();
    meta[EVICTIONS] = gone as u64;
    let (Call::Read { page, .. } | Call::Write { page, .. }) = played.call else {
        return (meta, raw);
    };
    let page = u64::from(page);
    let is_raw = played.before.buffers.kinds.lent()[page as usize] == 1;
    match (is_raw, given.slot_of(page), left.slot_of(page)) {
        (true, _, _) => raw[BYPASSES] = 1,
        (false, Some(_), _) => (meta[ACCESSES], meta[HITS]) = (1, 1),
        (false, None, Some(_)) => (meta[ACCESSES], meta[MISSES]) = (1, 1),
        (false, None, None) => meta[BYPASSES] = 1,
    }
    (meta, raw)
}
