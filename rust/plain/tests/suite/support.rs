//! The bench: a recorder with all it is lent, and a desk. Every slice is a little longer than asked
//! for, and every call made through the bench is checked for what holds of all calls: a refusal
//! changes nothing, and no call writes behind the length the settings ask for.

use plain::*;

/// Bytes every lent slice has beyond its need.
pub const SPARE: usize = 5;
/// What buffers hold where nothing was written.
pub const DIRT: u8 = 0xa5;

pub fn settings(page_size: u32, slots: u32, lag: u32, capacity: u32) -> Settings {
    Settings {
        page_size,
        slots,
        lag,
        capacity,
    }
}

/// The settings of document 01's example: P = 512, S = 2, L = 3.
pub fn example_settings(capacity: u32) -> Settings {
    settings(512, 2, 3, capacity)
}

#[derive(Clone)]
pub struct Bench {
    pub state: State,
    pub ledger: Vec<u8>,
    pub base: Vec<u8>,
    pub side: Vec<u8>,
    pub pages: Vec<u8>,
    pub kinds: Vec<u8>,
}

impl Bench {
    /// Buffers for the settings, dirty, with the kinds given first in the kind table. Nothing is
    /// opened yet.
    pub fn closed(s: Settings, kinds: &[u8]) -> Bench {
        let page = s.page_size as usize;
        let mut table = vec![DIRT; s.capacity as usize + SPARE];
        table[..kinds.len()].copy_from_slice(kinds);
        Bench {
            state: State::default(),
            ledger: vec![DIRT; ledger_length(s) + SPARE],
            base: vec![DIRT; s.capacity as usize * page + SPARE],
            side: vec![DIRT; side_length(s) + SPARE],
            pages: vec![DIRT; s.slots as usize * page + SPARE],
            kinds: table,
        }
    }

    /// An opened recorder whose file has one page for each kind given.
    pub fn opened(s: Settings, kinds: &[u8], tick: u32) -> Bench {
        let mut bench = Bench::closed(s, kinds);
        assert_eq!(bench.open(s, kinds.len() as u32, tick), 0);
        bench
    }

    /// The example's recorder: four metadata pages, tick 0 closed. Page p is filled with the byte p
    /// + 1.
    pub fn example() -> Bench {
        let mut bench = Bench::closed(example_settings(8), &[0; 4]);
        for page in 0..4 {
            bench.base[page * 512..(page + 1) * 512].fill(page as u8 + 1);
        }
        assert_eq!(bench.open(example_settings(8), 4, 0), 0);
        bench
    }

    pub fn lent(&mut self) -> Lent<'_> {
        Lent {
            ledger: &mut self.ledger,
            base: &mut self.base,
            side: &mut self.side,
            pages: &mut self.pages,
            kinds: &mut self.kinds,
        }
    }

    pub fn open(&mut self, s: Settings, end: u32, tick: u32) -> u32 {
        let before = self.clone();
        let answer = open(s, end, tick, &mut self.lent());
        if answer.number == 0 {
            self.state = answer.state;
            self.assert_rest_untouched(&before);
        } else {
            assert_eq!(answer.state, State::default());
            self.assert_same(&before);
        }
        answer.number
    }

    /// The number and what stands in the lent slice afterwards.
    pub fn read(&mut self, page: u32, offset: u32, length: usize) -> (u32, Vec<u8>) {
        let mut into = vec![DIRT; length];
        let number = self.call(|state, lent| read(state, lent, page, offset, &mut into));
        if number != 0 {
            assert!(
                into.iter().all(|&byte| byte == DIRT),
                "a refused read wrote"
            );
        }
        (number, into)
    }

    pub fn write(&mut self, page: u32, offset: u32, from: &[u8]) -> u32 {
        self.call(|state, lent| write(state, lent, page, offset, from))
    }

    pub fn grow(&mut self, kind: u32) -> u32 {
        self.call(|state, lent| grow(state, lent, kind))
    }

    pub fn close(&mut self) -> u32 {
        self.call(close)
    }

    fn call(&mut self, call: impl FnOnce(State, &mut Lent) -> Answer) -> u32 {
        let before = self.clone();
        let answer = call(self.state, &mut self.lent());
        if answer.number == 0 {
            self.state = answer.state;
            self.assert_rest_untouched(&before);
        } else {
            assert_eq!(
                answer.state, before.state,
                "a refusal answers the state given"
            );
            self.assert_same(&before);
        }
        answer.number
    }

    fn assert_rest_untouched(&self, before: &Bench) {
        let s = self.state.settings;
        let page = s.page_size as usize;
        let asked = [
            (&self.ledger, &before.ledger, ledger_length(s), "ledger"),
            (&self.base, &before.base, s.capacity as usize * page, "base"),
            (&self.side, &before.side, side_length(s), "side file"),
            (
                &self.pages,
                &before.pages,
                s.slots as usize * page,
                "page buffer",
            ),
            (
                &self.kinds,
                &before.kinds,
                s.capacity as usize,
                "kind table",
            ),
        ];
        for (now, then, length, name) in asked {
            assert!(
                now[length..] == then[length..],
                "the rest of the {name} was written"
            );
        }
    }

    /// Equal in everything; compared one by one so that a failure names the part and prints no
    /// buffers.
    pub fn assert_same(&self, other: &Bench) {
        assert_eq!(self.state, other.state);
        assert!(self.ledger == other.ledger, "ledgers differ");
        assert!(self.base == other.base, "bases differ");
        assert!(self.side == other.side, "side files differ");
        assert!(self.pages == other.pages, "page buffers differ");
        assert!(self.kinds == other.kinds, "kind tables differ");
    }

    /// Page of the base.
    pub fn base_page(&self, page: usize) -> &[u8] {
        let length = self.state.settings.page_size as usize;
        &self.base[page * length..(page + 1) * length]
    }

    /// Image place of the side file.
    pub fn image(&self, place: usize) -> &[u8] {
        let s = self.state.settings;
        let length = s.page_size as usize;
        let start = side_length(s) - (image_places(s) - place) * length;
        &self.side[start..start + length]
    }

    /// The ledger's entries: page, place, last change, checksum, entry tick.
    pub fn entries(&self) -> Vec<[u32; 5]> {
        (0..self.state.entries as usize)
            .map(|row| self.entry_row(row))
            .collect()
    }

    pub fn entry_row(&self, row: usize) -> [u32; 5] {
        [0, 4, 8, 12, 16].map(|at| number_at(&self.ledger, row * 20 + at))
    }

    /// Page, place, last change and entry tick of each entry; the checksum is left out.
    pub fn index(&self) -> Vec<[u32; 4]> {
        self.entries()
            .into_iter()
            .map(|[page, place, change, _, entered]| [page, place, change, entered])
            .collect()
    }

    pub fn set_entry_row(&mut self, row: usize, values: [u32; 5]) {
        for (field, value) in values.into_iter().enumerate() {
            put_number(&mut self.ledger, row * 20 + field * 4, value);
        }
    }

    /// The place rows: retired or not, retirement tick.
    pub fn place_row(&self, place: usize) -> [u32; 2] {
        let at = index_entries(self.state.settings) * 20 + place * 8;
        [number_at(&self.ledger, at), number_at(&self.ledger, at + 4)]
    }

    pub fn set_place_row(&mut self, place: usize, values: [u32; 2]) {
        let at = index_entries(self.state.settings) * 20 + place * 8;
        put_number(&mut self.ledger, at, values[0]);
        put_number(&mut self.ledger, at + 4, values[1]);
    }

    /// The places retired, with their ticks.
    pub fn retired(&self) -> Vec<(usize, u32)> {
        let places = 0..image_places(self.state.settings);
        places
            .map(|place| (place, self.place_row(place)))
            .filter(|(_, row)| row[0] != 0)
            .map(|(p, row)| (p, row[1]))
            .collect()
    }

    /// The pages in the slots, the one used longest ago first.
    pub fn order(&self) -> &[u32] {
        &self.state.slots.order[..self.state.slots.used as usize]
    }

    /// A held buffer with what a desk takes now.
    pub fn take(&self) -> Vec<u8> {
        let mut held = vec![DIRT; held_length(self.state.settings) + SPARE];
        assert_eq!(
            take(&self.side, &mut held),
            0,
            "what the recorder leaves is taken"
        );
        held
    }

    pub fn desk_read(&self, held: &[u8], page: u32, offset: u32, length: u32) -> Found<'_> {
        desk_read(&self.side, &self.base, held, page, offset, length)
    }

    /// Refreshes a held buffer and answers number and marks.
    pub fn refresh(&self, held: &mut [u8]) -> (u32, Vec<u8>) {
        let mut marks = vec![DIRT; self.state.settings.capacity as usize];
        let (held_before, marks_before) = (held.to_vec(), marks.clone());
        let number = refresh(&self.side, held, &mut marks);
        if number != 0 {
            assert!(
                held == held_before && marks == marks_before,
                "a refused refresh wrote"
            );
        }
        (number, marks)
    }
}

pub fn number_at(bytes: &[u8], at: usize) -> u32 {
    u32::from_le_bytes([bytes[at], bytes[at + 1], bytes[at + 2], bytes[at + 3]])
}

pub fn put_number(bytes: &mut [u8], at: usize, number: u32) {
    bytes[at..at + 4].copy_from_slice(&number.to_le_bytes());
}

/// Makes both checksums of a side file or held buffer right again after it was tampered with. The
/// number of entries is read from it and cut to what its bytes can hold.
pub fn mend(bytes: &mut [u8]) {
    let wanted = number_at(bytes, 20) as usize;
    let entries = wanted.min((bytes.len() - 36) / 16);
    let index = hashlittle(&bytes[36..36 + entries * 16], 0);
    put_number(bytes, 28, index);
    let header = hashlittle(&bytes[..32], 0);
    put_number(bytes, 32, header);
}

/// A small generator of random numbers (splitmix64), so that every run is the same.
pub struct Random(u64);

impl Random {
    pub fn new(seed: u64) -> Random {
        Random(seed)
    }

    pub fn next(&mut self) -> u64 {
        self.0 = self.0.wrapping_add(0x9e37_79b9_7f4a_7c15);
        let mut z = self.0;
        z = (z ^ (z >> 30)).wrapping_mul(0xbf58_476d_1ce4_e5b9);
        z = (z ^ (z >> 27)).wrapping_mul(0x94d0_49bb_1331_11eb);
        z ^ (z >> 31)
    }

    /// A number below `bound`, which is not 0.
    pub fn below(&mut self, bound: u32) -> u32 {
        (self.next() % u64::from(bound)) as u32
    }

    pub fn chance(&mut self, one_in: u32) -> bool {
        self.below(one_in) == 0
    }

    pub fn byte(&mut self) -> u8 {
        self.next() as u8
    }

    pub fn fill(&mut self, bytes: &mut [u8]) {
        for chunk in bytes.chunks_mut(8) {
            chunk.copy_from_slice(&self.next().to_le_bytes()[..chunk.len()]);
        }
    }

    pub fn pick<T: Copy>(&mut self, from: &[T]) -> T {
        from[self.below(from.len() as u32) as usize]
    }
}
