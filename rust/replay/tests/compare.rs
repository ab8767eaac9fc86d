//! The comparison of two versions: a version that lies about one thing is caught there and nowhere else, and one that does
//! not lie is not caught.

mod common;

use std::sync::atomic::{AtomicUsize, Ordering};

use common::plain;
use replay::compare::{compare, Difference, Named, Outcome};
use replay::version::{
    Answer, DeskCalls, EntryTold, Found, Lent, RecorderCalls, Settings, State, Told, Version, EMPTY,
};

/// The plain version, but for what a lie makes of an answer. It tells the lie at one of the calls that it fits.
struct Liar {
    lie: Lie,
    /// How many of the calls that the lie fits are answered truly before it is told.
    truths: AtomicUsize,
}

enum Lie {
    /// About a recorder call's answer or lent bytes.
    Recorder(fn(&mut Answer, &mut Lent)),
    /// About the state that it answers.
    State(StateLie),
    /// About the slice of a recorder's read.
    Dest(fn(&mut [u8])),
    /// About the number and the held buffer of take and refresh.
    Held(fn(&mut u32, &mut [u8])),
    Marks(fn(&mut [u8])),
    Found(fn(&mut Found)),
    /// About what a side file or a held buffer says.
    Header(fn(&mut Told)),
    Entry(fn(&mut EntryTold)),
}

type StateLie = fn(&mut State);

impl Liar {
    fn lies_now(&self) -> bool {
        let count = |truths: usize| truths.checked_sub(1);
        self.truths.fetch_update(Ordering::Relaxed, Ordering::Relaxed, count).is_err()
    }

    fn recorded(&self, mut answer: Answer, lent: &mut Lent) -> Answer {
        match &self.lie {
            Lie::Recorder(lie) if self.lies_now() => lie(&mut answer, lent),
            Lie::State(lie) if self.lies_now() => lie(&mut answer.state),
            _ => (),
        }
        answer
    }

    fn held(&self, mut number: u32, held: &mut [u8]) -> u32 {
        if let Lie::Held(lie) = &self.lie {
            if self.lies_now() {
                lie(&mut number, held);
            }
        }
        number
    }
}

impl RecorderCalls for Liar {
    fn open(&self, settings: Settings, end: u32, tick: u32, lent: &mut Lent) -> Answer {
        self.recorded(plain::open(settings, end, tick, lent), lent)
    }

    fn read(
        &self,
        state: State,
        lent: &mut Lent,
        page: u32,
        offset: u32,
        into: &mut [u8],
    ) -> Answer {
        let answer = plain::read(state, lent, page, offset, into);
        if let Lie::Dest(lie) = &self.lie {
            if self.lies_now() {
                lie(into);
            }
        }
        self.recorded(answer, lent)
    }

    fn write(&self, state: State, lent: &mut Lent, page: u32, offset: u32, from: &[u8]) -> Answer {
        self.recorded(plain::write(state, lent, page, offset, from), lent)
    }

    fn grow(&self, state: State, lent: &mut Lent, kind: u32) -> Answer {
        self.recorded(plain::grow(state, lent, kind), lent)
    }

    fn close(&self, state: State, lent: &mut Lent) -> Answer {
        self.recorded(plain::close(state, lent), lent)
    }
}

impl DeskCalls for Liar {
    fn take(&self, side: &[u8], held: &mut [u8]) -> u32 {
        self.held(plain::take(side, held), held)
    }

    fn refresh(&self, side: &[u8], held: &mut [u8], marks: &mut [u8]) -> u32 {
        let number = plain::refresh(side, held, marks);
        if let Lie::Marks(lie) = &self.lie {
            if self.lies_now() {
                lie(marks);
            }
        }
        self.held(number, held)
    }

    fn read<'a>(
        &self,
        side: &'a [u8],
        base: &'a [u8],
        held: &[u8],
        page: u32,
        offset: u32,
        length: u32,
    ) -> Found<'a> {
        let mut found = plain::desk_read(side, base, held, page, offset, length);
        if let Lie::Found(lie) = &self.lie {
            if self.lies_now() {
                lie(&mut found);
            }
        }
        found
    }

    fn header(&self, front: &[u8]) -> Told {
        let mut told = plain::header_told(front);
        if let Lie::Header(lie) = &self.lie {
            if self.lies_now() {
                lie(&mut told);
            }
        }
        told
    }

    fn entry(&self, front: &[u8], i: u32) -> EntryTold {
        let mut told = plain::entry_told(front, i);
        if let Lie::Entry(lie) = &self.lie {
            if self.lies_now() {
                lie(&mut told);
            }
        }
        told
    }
}

/// A short recording with every call in it, refused ones too.
const SCRIPT: &str = "\
buffer base 3072 1
buffer side 9000 2
buffer pages 1024 3
buffer kinds 6 0
poke kinds 0 000000000000
buffer held 164 4
buffer marks 6 5
open 512 2 3 4 5 0
open 512 2 3 6 3 0
write 2 0 aabb
read 2 0 4
grow 0
close
take
write 2 1 cc
close
refresh
deskread 2 0 4
close
";
const CALLS: usize = 12;
/// Those of the recorder among them.
const RECORDER_CALLS: usize = 9;

fn two(other: Version) -> [Named; 2] {
    [Named { name: "plain", version: plain() }, Named { name: "other", version: other }]
}

fn outcome(lie: Lie, truths: usize) -> Outcome {
    let liar: &'static Liar = Box::leak(Box::new(Liar { lie, truths: AtomicUsize::new(truths) }));
    compare(two(Version { recorder: liar, desk: liar }), SCRIPT).expect("a script")
}

fn caught(lie: Lie, truths: usize) -> Difference {
    match outcome(lie, truths) {
        Outcome::Different(difference) => difference,
        Outcome::Same { .. } => panic!("the lie was not caught"),
    }
}

fn place(lie: Lie, truths: usize) -> String {
    caught(lie, truths).spot.place
}

#[test]
fn a_version_that_does_not_lie_is_not_caught() {
    let same = Outcome::Same { calls: CALLS };
    assert_eq!(compare(two(plain()), SCRIPT).expect("a script"), same);
    assert_eq!(outcome(Lie::Recorder(|answer, _| answer.number = 99), RECORDER_CALLS), same);
}

#[test]
fn the_message_has_call_field_and_values() {
    let difference = caught(Lie::Recorder(|answer, _| answer.state.closed += 7), 5);
    assert_eq!(difference.to_string(), "line 13, close: state.closed is 1 on plain and 8 on other");
    let difference = caught(Lie::Recorder(|_, lent| lent.side[700] ^= 1), 2);
    let byte = difference.spot.values[0];
    assert_eq!(
        difference.to_string(),
        format!("line 10, write: side[700] is {byte} on plain and {} on other", byte ^ 1)
    );
}

#[test]
fn every_field_of_the_state() {
    let lies: [(&str, StateLie); 28] = [
        ("settings.size", |s| s.settings.page_size ^= 1),
        ("settings.slots", |s| s.settings.slots ^= 1),
        ("settings.lag", |s| s.settings.lag ^= 1),
        ("settings.capacity", |s| s.settings.capacity ^= 1),
        ("end", |s| s.end ^= 1),
        ("closed", |s| s.closed ^= 1),
        ("entries", |s| s.entries ^= 1),
        ("slots.pages[0]", |s| s.slots.pages[0] ^= 1),
        ("slots.pages[15]", |s| s.slots.pages[15] = EMPTY - 1),
        ("slots.changed[0]", |s| s.slots.changed[0] ^= 1),
        ("slots.changed[1]", |s| s.slots.changed[1] = 2),
        ("slots.changed[15]", |s| s.slots.changed[15] ^= 1),
        ("slots.order[0]", |s| s.slots.order[0] ^= 1),
        ("slots.order[15]", |s| s.slots.order[15] ^= 1),
        ("slots.used", |s| s.slots.used ^= 1),
        ("meta.accesses", |s| s.meta.accesses ^= 1),
        ("meta.hits", |s| s.meta.hits ^= 1),
        ("meta.misses", |s| s.meta.misses ^= 1),
        ("meta.evictions", |s| s.meta.evictions ^= 1),
        ("meta.bypasses", |s| s.meta.bypasses ^= 1),
        ("raw.accesses", |s| s.raw.accesses ^= 1),
        ("raw.hits", |s| s.raw.hits ^= 1),
        ("raw.misses", |s| s.raw.misses ^= 1),
        ("raw.evictions", |s| s.raw.evictions ^= 1),
        ("raw.bypasses", |s| s.raw.bypasses ^= 1),
        // Of several the first is named.
        ("end", |s| (s.end, s.raw.bypasses) = (s.end + 1, 9)),
        ("meta.hits", |s| (s.meta.hits, s.raw.hits) = (9, 9)),
        ("slots.pages[1]", |s| (s.slots.pages[1], s.slots.used) = (9, 9)),
    ];
    for (field, lie) in lies {
        assert_eq!(place(Lie::State(lie), 2), format!("state.{field}"));
    }
}

#[test]
fn answers_and_lent_bytes_of_the_recorder() {
    for truths in 0..RECORDER_CALLS {
        assert_eq!(place(Lie::Recorder(|answer, _| answer.number ^= 1), truths), "answer");
        assert_eq!(place(Lie::Recorder(|_, lent| lent.base[0] ^= 1), truths), "base[0]");
        assert_eq!(place(Lie::Recorder(|_, lent| lent.side[8999] ^= 1), truths), "side[8999]");
        assert_eq!(place(Lie::Recorder(|_, lent| lent.pages[1023] ^= 1), truths), "pages[1023]");
        assert_eq!(place(Lie::Recorder(|_, lent| lent.kinds[5] ^= 1), truths), "kinds[5]");
        assert_eq!(place(Lie::Recorder(|_, lent| lent.ledger[5055] ^= 1), truths), "ledger[5055]");
    }
    assert_eq!(place(Lie::Dest(|dest| dest[3] ^= 1), 0), "dest[3]");
}

/// The state that a refused open answers is kept by nobody, and is compared all the same.
#[test]
fn the_state_of_a_refused_open() {
    let difference = caught(Lie::Recorder(|answer, _| answer.state.entries = 1), 0);
    assert_eq!(difference.to_string(), "line 8, open: state.entries is 0 on plain and 1 on other");
}

#[test]
fn answers_and_lent_bytes_of_the_desk() {
    for truths in 0..2 {
        assert_eq!(place(Lie::Held(|number, _| *number = 13), truths), "answer");
        assert_eq!(place(Lie::Held(|_, held| held[163] ^= 1), truths), "held[163]");
    }
    assert_eq!(place(Lie::Marks(|marks| marks[5] ^= 1), 0), "marks[5]");
    assert_eq!(place(Lie::Found(|found| found.number = 14), 0), "answer");
    assert_eq!(place(Lie::Found(|found| found.source ^= 1), 0), "source");
    assert_eq!(place(Lie::Found(|found| found.offset += 1), 0), "offset");
    assert_eq!(place(Lie::Found(|found| found.bytes = b"\xaa\xcc\x19\x20"), 0), "bytes[2]");
    assert_eq!(place(Lie::Found(|found| found.bytes = &found.bytes[..3]), 0), "length of bytes");
}

/// After the take both buffers have the one header, and two entries: of each two are told, the one behind them and the last.
#[test]
fn what_is_said_of_the_side_file_and_the_held_buffer() {
    for (name, truths) in [("side", 0), ("held", 1)] {
        let header = |lie| place(Lie::Header(lie), truths);
        assert_eq!(header(|told| told.number = 12), format!("header of {name}: number"));
        assert_eq!(header(|told| told.tick += 1), format!("header of {name}: tick"));
        assert_eq!(header(|told| told.end += 1), format!("header of {name}: end"));
        assert_eq!(header(|told| told.entries += 1), format!("header of {name}: entries"));
        assert_eq!(header(|told| told.settings.lag += 1), format!("header of {name}: lag"));
        assert_eq!(
            header(|told| told.settings.capacity = 6),
            format!("header of {name}: capacity")
        );
    }
    for (truths, of) in [(0, "entry 0 of side"), (1, "entry 1 of side"), (4, "entry 0 of held")] {
        let entry = |lie| place(Lie::Entry(lie), truths);
        assert_eq!(entry(|told| told.found = 0), format!("{of}: found"));
        assert_eq!(entry(|told| told.page += 1), format!("{of}: page"));
        assert_eq!(entry(|told| told.place += 1), format!("{of}: place"));
        assert_eq!(entry(|told| told.changed += 1), format!("{of}: changed"));
        assert_eq!(entry(|told| told.sum ^= 1), format!("{of}: sum"));
    }
    assert_eq!(place(Lie::Entry(|told| told.found = 1), 2), "entry 2 of side: found");
    assert_eq!(place(Lie::Entry(|told| told.found = 1), 3), "entry 4294967295 of side: found");
}

#[test]
fn an_error_in_the_script_is_no_difference() {
    let error = compare(two(plain()), "close\npoke base 0 00\n").expect_err("an error");
    assert_eq!(error.line, 2);
}
