//! Random recordings: every call compared with the model, byte for byte, and watched by desks of
//! every lag that took at each close and read after each later call. What they must see was kept
//! aside at their tick.

use crate::model::Model;
use crate::support::*;
use plain::*;

/// A desk that took at a tick, and the metadata pages of that tick.
struct Desk {
    held: Vec<u8>,
    tick: u32,
    end: u32,
    pages: Vec<Option<Vec<u8>>>,
}

struct Recording {
    random: Random,
    s: Settings,
    bench: Bench,
    model: Model,
    /// Every page as the recorder must read it, and the tick in which each was changed last.
    content: Vec<Vec<u8>>,
    changed: Vec<Option<u32>>,
    desks: Vec<Desk>,
}

impl Recording {
    fn start(seed: u64, s: Settings) -> Recording {
        let mut random = Random::new(seed);
        let end = random.below(s.capacity.min(9) + 1);
        let kinds: Vec<u8> = (0..end).map(|_| u8::from(random.chance(5))).collect();
        let tick = random.pick(&[0, 1, 1000, 4_294_967_000]);
        let mut bench = Bench::closed(s, &kinds);
        random.fill(&mut bench.base);
        let model = Model::open(&bench, s, end, tick);
        assert_eq!(bench.open(s, end, tick), 0);
        model.assert_describes(&bench);
        let page = s.page_size as usize;
        let content: Vec<Vec<u8>> = bench
            .base
            .chunks_exact(page)
            .take(end as usize)
            .map(<[u8]>::to_vec)
            .collect();
        let changed = vec![None; end as usize];
        let mut recording = Recording {
            random,
            s,
            bench,
            model,
            content,
            changed,
            desks: Vec::new(),
        };
        recording.post_a_desk();
        recording
    }

    fn is_raw(&self, page: usize) -> bool {
        self.bench.kinds[page] == 1
    }

    /// What open and close leave is taken, and the index held is that of the ledger.
    fn post_a_desk(&mut self) {
        let held = self.bench.take();
        for (row, [page, place, change, sum, _]) in self.bench.entries().into_iter().enumerate() {
            let held_row = [0, 4, 8, 12].map(|at| number_at(&held, 36 + row * 16 + at));
            assert_eq!(held_row, [page, place, change, sum]);
        }
        let pages = (0..self.content.len())
            .map(|page| (!self.is_raw(page)).then(|| self.content[page].clone()));
        let desk = Desk {
            held,
            tick: self.bench.state.closed,
            end: self.bench.state.end,
            pages: pages.collect(),
        };
        self.desks.push(desk);
    }

    fn step(&mut self) {
        match self.random.below(20) {
            0..=5 => self.read(),
            6..=13 => self.write(),
            14 => self.grow(),
            _ => self.close(),
        }
        self.model.assert_describes(&self.bench);
        let meta = self.bench.state.meta;
        assert_eq!(meta.accesses, meta.hits + meta.misses);
        let raw = self.bench.state.raw;
        assert_eq!(
            raw,
            Counts {
                bypasses: raw.bypasses,
                ..Counts::default()
            }
        );
        self.look_from_each_desk();
    }

    /// Mostly a page below e and a span inside it, now and then not.
    fn span(&mut self) -> (u32, u32, usize) {
        let beyond = u32::from(self.random.chance(8) || self.bench.state.end == 0);
        let page = self.random.below(self.bench.state.end + beyond);
        let size = self.s.page_size;
        let offset = if self.random.chance(3) {
            0
        } else {
            self.random.below(size + 2)
        };
        let length = match self.random.below(20) {
            0 => 0,
            1 => size + 1,
            2..=4 => size - offset.min(size),
            _ => 1 + self.random.below(40),
        };
        (page, offset, length as usize)
    }

    fn read(&mut self) {
        let (page, offset, length) = self.span();
        let (number, bytes) = self.bench.read(page, offset, length);
        let (expected, expected_bytes) = self.model.read(page, offset, length);
        assert_eq!(number, expected);
        if number == 0 {
            assert_eq!(bytes, expected_bytes);
            let at = offset as usize;
            assert_eq!(
                bytes,
                self.content[page as usize][at..at + length],
                "the recorder reads what it wrote"
            );
        }
    }

    fn write(&mut self) {
        let (page, offset, length) = self.span();
        let mut from = vec![0; length];
        self.random.fill(&mut from);
        let number = self.bench.write(page, offset, &from);
        assert_eq!(number, self.model.write(page, offset, &from));
        if number == 0 {
            let at = offset as usize;
            self.content[page as usize][at..at + length].copy_from_slice(&from);
            self.changed[page as usize] = Some(self.bench.state.closed + 1);
        }
    }

    fn grow(&mut self) {
        let kind = if self.random.chance(9) {
            2 + self.random.below(600)
        } else {
            self.random.below(2)
        };
        let number = self.bench.grow(kind);
        assert_eq!(number, self.model.grow(kind));
        if number == 0 {
            self.content.push(vec![0; self.s.page_size as usize]);
            self.changed.push(Some(self.bench.state.closed + 1));
        }
    }

    fn close(&mut self) {
        assert_eq!(self.model.close(), 0, "there is always room for a close");
        assert_eq!(self.bench.close(), 0);
        self.look_at_all_pages();
        self.refresh_copies();
        self.post_a_desk();
        let closed = self.bench.state.closed;
        let kept = self.s.lag + 2;
        self.desks.retain(|desk| closed - desk.tick <= kept);
    }

    fn look_from_each_desk(&mut self) {
        for i in 0..self.desks.len() {
            let end = self.desks[i].end;
            let page = self.random.below(end + 1);
            let offset = self.random.below(self.s.page_size);
            let length = 1 + self.random.below(self.s.page_size - offset);
            self.look(&self.desks[i], page, offset, length);
        }
    }

    fn look_at_all_pages(&self) {
        for desk in &self.desks {
            for page in 0..desk.end {
                self.look(desk, page, 0, self.s.page_size);
            }
        }
    }

    /// A desk within the lag gets the bytes of its tick; behind it, 13 for every page.
    fn look(&self, desk: &Desk, page: u32, offset: u32, length: u32) {
        let found = self.bench.desk_read(&desk.held, page, offset, length);
        if self.bench.state.closed - desk.tick > self.s.lag {
            assert_eq!(
                (found.number, found.source, found.offset, found.bytes.len()),
                (13, 0, 0, 0)
            );
            return;
        }
        if page >= desk.end {
            assert_eq!(found.number, 4);
            return;
        }
        assert_eq!(found.number, 0);
        if let Some(kept) = &desk.pages[page as usize] {
            let at = offset as usize;
            assert!(
                found.bytes == &kept[at..at + length as usize],
                "page {page} of tick {} has other bytes",
                desk.tick
            );
        }
        let slice = if found.source == 0 {
            &self.bench.base
        } else {
            &self.bench.side
        };
        assert_eq!(found.bytes.as_ptr(), slice[found.offset..].as_ptr());
    }

    /// A refresh within the lag marks exactly the metadata pages changed after the held tick.
    fn refresh_copies(&self) {
        for desk in &self.desks {
            let mut held = desk.held.clone();
            let (number, marks) = self.bench.refresh(&mut held);
            if self.bench.state.closed - desk.tick > self.s.lag {
                assert_eq!(number, 13);
                continue;
            }
            assert_eq!(number, 0);
            assert!(held == self.bench.take());
            let end = self.bench.state.end as usize;
            for (page, &mark) in marks.iter().enumerate() {
                let after = |page: usize| self.changed[page].is_some_and(|tick| tick > desk.tick);
                let expected = if page >= end {
                    DIRT
                } else {
                    u8::from(!self.is_raw(page) && after(page))
                };
                assert_eq!(mark, expected, "mark of page {page}");
            }
        }
    }

    /// Once the last change is closed, L more closes bring every page into the base, and one more
    /// empties the index.
    fn finish(&mut self) {
        for _ in 0..=self.s.lag {
            self.close();
        }
        for (page, content) in self.content.iter().enumerate() {
            assert!(
                self.bench.base_page(page) == content,
                "page {page} has not reached the base"
            );
        }
        self.close();
        assert_eq!(self.bench.state.entries, 0);
        self.model.assert_describes(&self.bench);
    }
}

fn record(seed: u64, s: Settings, calls: usize) -> Recording {
    let mut recording = Recording::start(seed, s);
    for _ in 0..calls {
        recording.step();
    }
    recording.finish();
    recording
}

#[test]
fn the_smallest_lag_in_one_slot() {
    for seed in 0..12 {
        record(seed, settings(512, 1, 3, 6), 250);
    }
}

#[test]
fn the_largest_lag_in_one_slot() {
    for seed in 20..28 {
        record(seed, settings(512, 1, 8, 6), 250);
    }
}

#[test]
fn the_smallest_lag_in_sixteen_slots() {
    for seed in 40..44 {
        record(seed, settings(512, 16, 3, 40), 400);
    }
}

#[test]
fn the_largest_lag_in_sixteen_slots() {
    for seed in 60..63 {
        record(seed, settings(512, 16, 8, 60), 500);
    }
}

#[test]
fn every_page_size() {
    for (seed, page_size) in (80..).zip(Settings::PAGE_SIZES) {
        record(seed, settings(page_size, 3, 4, 12), 250);
        record(seed + 10, settings(page_size, 16, 8, 20), 60);
    }
}

#[test]
fn many_settings() {
    let mut random = Random::new(99);
    for seed in 100..140 {
        let page_size = random.pick(&[512, 512, 512, 1024]);
        let s = settings(
            page_size,
            1 + random.below(16),
            3 + random.below(6),
            1 + random.below(30),
        );
        record(seed, s, 100);
    }
}

/// The recordings above reach what they are meant to: bypasses, evictions, refusals for want of a
/// slot or room.
#[test]
fn recordings_reach_the_rare_cases() {
    let recording = record(1, settings(512, 2, 3, 12), 800);
    let meta = recording.bench.state.meta;
    assert!(
        meta.hits > 20 && meta.misses > 20 && meta.evictions > 20 && meta.bypasses > 20,
        "{meta:?}"
    );
}
