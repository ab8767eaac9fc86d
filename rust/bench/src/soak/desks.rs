//! A desk for each lag from 0 to L: it refreshes when it would fall behind by more. Both versions hold the same, mark the
//! same and find the same; and a metadata page is what it was at the held tick.

use plain::held_length;
use replay::version::{Settings, State};

use crate::both::{at, Both};
use crate::model::Model;
use crate::random::Random;
use crate::tally::Tally;

struct Desk {
    lag: u32,
    tick: u32,
    held: [Vec<u8>; 2],
}

pub struct Desks {
    settings: Settings,
    desks: Vec<Desk>,
}

impl Desks {
    /// All take the side file as open left it.
    pub fn new(both: &Both) -> Result<Desks, String> {
        let State { settings, closed: tick, .. } = both.state;
        let held = || [(); 2].map(|()| vec![0; held_length(settings)]);
        let desks = (0..=settings.lag).map(|lag| Desk { lag, tick, held: held() });
        let mut desks = Desks { settings, desks: desks.collect() };
        for desk in &mut desks.desks {
            desk.take(both)?;
        }
        Ok(desks)
    }

    /// Before a close: the desk at the largest lag refreshes in time, or misses it.
    pub fn hurry(&mut self, both: &Both, model: &Model, random: &mut Random, tally: &mut Tally) -> Result<(), String> {
        for desk in &mut self.desks {
            if model.closed - desk.tick == self.settings.lag && random.below(2) == 0 {
                tally.desk_calls += 1;
                desk.refresh(both, model)?;
            }
        }
        Ok(())
    }

    /// After a close: those that are farther behind than they want refresh, now and then one takes anew. One that is farther
    /// behind than L is refused, and takes.
    pub fn follow(&mut self, both: &Both, model: &Model, random: &mut Random, tally: &mut Tally) -> Result<(), String> {
        for desk in &mut self.desks {
            if model.closed - desk.tick <= desk.lag {
                continue;
            }
            tally.desk_calls += 1;
            if model.closed - desk.tick > self.settings.lag {
                desk.is_late(both)?;
                desk.take(both)?;
            } else if random.below(50) == 0 {
                desk.take(both)?;
            } else {
                desk.refresh(both, model)?;
            }
        }
        Ok(())
    }

    /// A read by any of them.
    pub fn read(&mut self, both: &Both, model: &Model, random: &mut Random, tally: &mut Tally) -> Result<(), String> {
        let desk = &self.desks[random.below(self.desks.len() as u32) as usize];
        tally.desk_calls += 1;
        tally.reads_by_lag[(model.closed - desk.tick) as usize] += 1;
        desk.read(self.settings, both, model, random)
    }
}

impl Desk {
    fn take(&mut self, both: &Both) -> Result<(), String> {
        let numbers = [0, 1].map(|i| both.versions[i].version.desk.take(&both.files[i].side, &mut self.held[i]));
        self.tick = both.state.closed;
        self.agreed("take", numbers)
    }

    /// Refresh and read answer 13.
    fn is_late(&mut self, both: &Both) -> Result<(), String> {
        let numbers = [0, 1].map(|i| {
            let (files, desk) = (&both.files[i], both.versions[i].version.desk);
            let mut marks = vec![0; both.state.end as usize];
            let refreshed = desk.refresh(&files.side, &mut self.held[i], &mut marks);
            (refreshed, desk.read(&files.side, &files.base, &self.held[i], 0, 0, 1).number)
        });
        if numbers != [(13, 13); 2] {
            return Err(format!("a desk that is too late is answered {numbers:?}"));
        }
        Ok(())
    }

    fn agreed(&self, call: &str, numbers: [u32; 2]) -> Result<(), String> {
        if numbers != [0, 0] {
            return Err(format!("{call} at lag {} answers {numbers:?}", self.lag));
        }
        if self.held[0] != self.held[1] {
            return Err(at("held", &self.held[0], &self.held[1]));
        }
        Ok(())
    }

    fn refresh(&mut self, both: &Both, model: &Model) -> Result<(), String> {
        let end = model.snapshot(model.closed).ok_or("no snapshot of the closed tick")?.end;
        let mut marks = [(); 2].map(|()| vec![9; end as usize + 1]);
        let numbers = [0, 1]
            .map(|i| both.versions[i].version.desk.refresh(&both.files[i].side, &mut self.held[i], &mut marks[i]));
        self.agreed("refresh", numbers)?;
        let mut wanted: Vec<u8> = (0..end).map(|page| model.mark(page, self.tick)).collect();
        wanted.push(9);
        for marks in &marks {
            if *marks != wanted {
                return Err(at("marks", marks, &wanted));
            }
        }
        self.tick = both.state.closed;
        Ok(())
    }

    fn read(&self, settings: Settings, both: &Both, model: &Model, random: &mut Random) -> Result<(), String> {
        let then = model.snapshot(self.tick).ok_or("no snapshot of the held tick")?;
        let page = random.below(then.end + 1);
        let (offset, length) = random.span(settings.page_size);
        let [one, two] = [0, 1].map(|i| {
            let files = &both.files[i];
            both.versions[i].version.desk.read(&files.side, &files.base, &self.held[i], page, offset, length)
        });
        if (one.number, one.source, one.offset, one.bytes) != (two.number, two.source, two.offset, two.bytes) {
            return Err(format!("a desk read of page {page} differs: {} and {}", one.number, two.number));
        }
        let wanted = if page < then.end { 0 } else { 4 };
        if one.number != wanted {
            return Err(format!("a desk read of page {page} answers {}, not {wanted}", one.number));
        }
        if wanted == 0 && model.is_metadata(page) && one.bytes != then.span(settings.page_size, page, offset, length) {
            return Err(format!("page {page} at the held tick {} is not what it was", self.tick));
        }
        Ok(())
    }
}
