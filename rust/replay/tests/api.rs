//! Facts about the calls that no script line can tell: odd structs, short ledgers, the state that a
//! refused open answers, and where the bytes of a desk read lie. Of both versions.

mod common;

use common::both;
use replay::ledger;
use replay::run::Machine;
use replay::script::{parse_line, Call, Item};
use replay::version::{Answer, Lent, Settings, State, Version, EMPTY};

const SETTINGS: Settings = Settings { page_size: 512, slots: 2, lag: 3, capacity: 4 };
/// 20 bytes for each of X = 8 entries, 8 for each of M = 14 places.
const LEDGER: usize = 20 * 8 + 8 * 14;

struct Files {
    version: Version,
    ledger: Vec<u8>,
    base: Vec<u8>,
    side: Vec<u8>,
    pages: Vec<u8>,
    kinds: Vec<u8>,
}

impl Files {
    fn new(version: Version, ledger: usize) -> Files {
        Files {
            version,
            ledger: vec![0xee; ledger],
            base: vec![1; 2048],
            side: vec![2; 7680],
            pages: vec![3; 1024],
            kinds: vec![0; 4],
        }
    }

    fn lent(&mut self) -> Lent<'_> {
        Lent {
            ledger: &mut self.ledger,
            base: &mut self.base,
            side: &mut self.side,
            pages: &mut self.pages,
            kinds: &mut self.kinds,
        }
    }

    fn open(&mut self) -> Answer {
        self.version.recorder.open(SETTINGS, 4, 0, &mut self.lent())
    }

    fn opened(&mut self) -> State {
        let answer = self.open();
        assert_eq!(answer.number, 0);
        answer.state
    }

    /// The answers of read, write, grow and close to a state.
    fn answers(&mut self, state: State) -> [u32; 4] {
        let mut into = [0xee; 4];
        [
            self.version.recorder.read(state, &mut self.lent(), 0, 0, &mut into).number,
            self.version.recorder.write(state, &mut self.lent(), 0, 0, &[1]).number,
            self.version.recorder.grow(state, &mut self.lent(), 2).number,
            self.version.recorder.close(state, &mut self.lent()).number,
        ]
    }
}

#[test]
fn the_ledger_must_be_long_enough() {
    for version in both() {
        assert_eq!(Files::new(version, LEDGER - 1).open().number, 2);
        let mut files = Files::new(version, LEDGER);
        let state = files.opened();
        assert!(files.ledger.iter().all(|&byte| byte == 0));
        files.ledger.pop();
        assert_eq!(files.answers(state), [3; 4]);
    }
}

#[test]
fn the_rest_of_a_longer_ledger_is_not_written() {
    for version in both() {
        let mut files = Files::new(version, ledger::LENGTH);
        let state = files.opened();
        let written = version.recorder.write(state, &mut files.lent(), 0, 0, &[1]);
        assert_eq!(version.recorder.close(written.state, &mut files.lent()).number, 0);
        assert!(files.ledger[LEDGER..].iter().all(|&byte| byte == 0xee));
    }
}

#[test]
fn a_refused_open_answers_the_zero_state_and_leaves_the_ledger() {
    for version in both() {
        let mut files = Files::new(version, LEDGER);
        let answer = version.recorder.open(SETTINGS, 5, 0, &mut files.lent());
        assert_eq!(answer.number, 1);
        assert_eq!(answer.state, State::default());
        assert!(files.ledger.iter().all(|&byte| byte == 0xee));
        assert_eq!(files.answers(answer.state), [3; 4]);
    }
}

/// The one state rule that no script can break: the ledger has no row for entry X + 1.
#[test]
fn more_than_x_entries_break_the_state() {
    for version in both() {
        let mut files = Files::new(version, ledger::LENGTH);
        let state = files.opened();
        for entries in [9, 144, 145, u32::MAX] {
            assert_eq!(files.answers(State { entries, ..state }), [3; 4], "{entries}");
        }
    }
}

#[test]
fn odd_slot_tables_break_the_state() {
    for version in both() {
        let mut files = Files::new(version, LEDGER);
        let state = files.opened();
        let mut longer = state;
        longer.slots.used = 17;
        assert_eq!(files.answers(longer), [3; 4]);
        let mut nowhere = state;
        nowhere.slots.order[0] = 1;
        nowhere.slots.used = 1;
        assert_eq!(files.answers(nowhere), [3; 4], "a page in the order and in no slot");
        let mut empty = state;
        empty.slots.order[0] = EMPTY;
        empty.slots.used = 1;
        assert_eq!(files.answers(empty), [3; 4], "an empty slot in the order");
    }
}

/// Any flag but 0 is set; what stands in the order beyond its length is handed back as it came.
#[test]
fn flags_and_spare_order() {
    for version in both() {
        let mut files = Files::new(version, LEDGER);
        let mut state = files.opened();
        state.slots.pages[0] = 2;
        state.slots.changed[0] = 255;
        state.slots.order = [7; 16];
        state.slots.order[0] = 2;
        state.slots.used = 1;
        let closed = version.recorder.close(state, &mut files.lent());
        assert_eq!((closed.number, closed.state.entries), (0, 1));
        assert_eq!(closed.state.slots.changed, [0; 16]);
        let read = version.recorder.read(closed.state, &mut files.lent(), 1, 0, &mut [0]);
        assert_eq!(read.number, 0);
        assert_eq!(read.state.slots.order[..2], [2, 1]);
        assert_eq!(read.state.slots.order[2..], [7; 14]);
        assert_eq!(read.state.slots.used, 2);
    }
}

/// No listing shows what a set flag is, only that it is set: calls set it to 1, whatever it was.
#[test]
fn writes_and_grows_set_the_flag_to_1() {
    for version in both() {
        let mut files = Files::new(version, LEDGER);
        let answer = version.recorder.open(SETTINGS, 3, 0, &mut files.lent());
        let mut state = version.recorder.write(answer.state, &mut files.lent(), 0, 0, &[1]).state;
        assert_eq!(state.slots.changed[..2], [1, 0]);
        state.slots.changed[0] = 255;
        let state = version.recorder.write(state, &mut files.lent(), 0, 0, &[1]).state;
        assert_eq!(state.slots.changed[..2], [1, 0]);
        let grown = version.recorder.grow(state, &mut files.lent(), 0);
        assert_eq!((grown.number, &grown.state.slots.changed[..2]), (0, &[1, 1][..]));
    }
}

/// 65,535 pages of 512 bytes.
#[test]
fn the_largest_file() {
    for version in both() {
        let settings = Settings { page_size: 512, slots: 1, lag: 3, capacity: 65_535 };
        let mut files = Files::new(version, ledger::LENGTH);
        files.base = vec![1; 65_535 * 512];
        files.kinds = vec![0; 65_535];
        let opened = version.recorder.open(settings, 65_535, 0, &mut files.lent());
        assert_eq!(opened.number, 0);
        let mut into = [0; 1];
        let read = version.recorder.read(opened.state, &mut files.lent(), 65_534, 511, &mut into);
        assert_eq!((read.number, into), (0, [1]));
        assert_eq!(
            version.recorder.read(read.state, &mut files.lent(), 65_535, 0, &mut into).number,
            4
        );
        files.kinds.pop();
        assert_eq!(version.recorder.close(read.state, &mut files.lent()).number, 2);
    }
}

/// The desk gets a part of the very slice it lent, and on a refusal the empty part at the base's
/// start.
#[test]
fn desk_reads_hand_out_parts_of_the_lent_slices() {
    for version in both() {
        let calls = common::played("row-d.script");
        let read =
            calls.iter().find(|played| played.call.word() == "deskread").expect("a desk read");
        let buffers = &read.before.buffers;
        let (side, base, held) = (buffers.side.lent(), buffers.base.lent(), buffers.held.lent());
        for (page, length, number) in [(2, 5, 0), (3, 5, 0), (4, 5, 4), (2, 0, 6)] {
            let found = version.desk.read(side, base, held, page, 7, length);
            assert_eq!(found.number, number);
            let lent = if found.source == 1 { side } else { base };
            assert_eq!(found.source, u32::from(page == 2 && number == 0));
            assert_eq!(found.bytes.as_ptr(), lent[found.offset..].as_ptr());
            assert_eq!(found.bytes.len() as u32, if number == 0 { length } else { 0 });
        }
    }
}

/// A state that struct and ledger cannot hold answers 3 without a call, and its listing is what the
/// line named.
#[test]
fn states_beyond_the_struct_answer_3() {
    for version in both() {
        let prepared = [
            "buffer base 2048 1",
            "buffer side 4096 2",
            "buffer pages 512 3",
            "buffer kinds 4 0",
            "poke kinds 0 00000000",
            "state P=512 S=1 L=3 E=4 e=4 tick=9 retired=3:9,3:9",
        ];
        for call in ["read 0 0 1", "write 0 0 00", "grow 0", "close", "open 512 1 3 4 4 0"] {
            let mut machine = Machine::new(version);
            for line in prepared {
                machine
                    .play(&parse_line(line).expect("a line").expect("an item"))
                    .expect("a line that can be played");
            }
            let listing = machine.world.recorder.listing();
            assert!(listing.contains("retired=3:9,3:9"), "{listing}");
            let Ok(Some(Item::Call(call))) = parse_line(call) else { panic!("no call") };
            let opens = matches!(call, Call::Open { .. });
            assert_eq!(machine.call(&call).number, if opens { 0 } else { 3 });
            assert_eq!(machine.world.recorder.listing() == listing, !opens);
        }
    }
}
