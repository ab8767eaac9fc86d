//! A long recording: random calls, good and bad, closes, desks; and now and then the index and the places filled to their
//! bounds. Every answer is the model's.

use replay::version::Settings;

use crate::both::Both;
use crate::desks::Desks;
use crate::fill;
use crate::model::Model;
use crate::random::Random;
use crate::stop::Stop;
use crate::tally::Tally;
use crate::versions;

pub struct Recording<'a> {
    pub both: Both,
    pub random: Random,
    pub tally: &'a mut Tally,
    model: Model,
    desks: Desks,
    calls: u64,
}

/// So many calls at some settings. Where S is at least L the bounds are reached at the start, and again now and then.
pub fn play(settings: Settings, seed: u64, calls: u64, stop: &Stop, tally: &mut Tally) -> Result<(), String> {
    let mut recording = Recording::open(settings, seed, tally)?;
    let end = recording.run(calls, stop);
    let call = recording.calls;
    end.map_err(|error| format!("after {call} calls: {error}"))?;
    tally.recordings += 1;
    Ok(())
}

impl Recording<'_> {
    /// Half of the pages are there from the start; every eighth is raw.
    fn open(settings: Settings, seed: u64, tally: &mut Tally) -> Result<Recording<'_>, String> {
        let mut random = Random::new(seed);
        let base = random.bytes(settings.capacity * settings.page_size);
        let end = settings.capacity / 2;
        let tick = random.below(1_000_000);
        let kinds: Vec<u8> = (0..settings.capacity).map(|page| u8::from(page % 8 == 7)).collect();
        let both = Both::open(versions()?, settings, tick, (base.clone(), kinds.clone()), end)?;
        let desks = Desks::new(&both)?;
        let model = Model::new(settings, base, kinds, end, tick);
        Ok(Recording { both, random, tally, model, desks, calls: 0 })
    }

    pub fn settings(&self) -> Settings {
        self.both.state.settings
    }

    fn run(&mut self, calls: u64, stop: &Stop) -> Result<(), String> {
        let fills = self.settings().slots >= self.settings().lag;
        while self.calls < calls && !stop.is_due() {
            if fills && (self.calls == 0 || self.random.below(40_000) == 0) {
                fill::fill(self)?;
            }
            self.any_call()?;
        }
        Ok(())
    }

    fn any_call(&mut self) -> Result<(), String> {
        match self.random.below(64) {
            0..=21 => {
                let page = self.any_page();
                self.write(page).map(|_| ())
            }
            22..=37 => self.read(),
            38 => self.grow(),
            39..=41 => self.bad_call(),
            42..=49 => self.close(),
            _ => self.desks.read(&self.both, &self.model, &mut self.random, self.tally),
        }
    }

    fn counted(&mut self, number: u32) {
        self.calls += 1;
        self.tally.recorder_calls += 1;
        self.tally.refused += u64::from(number != 0);
        self.tally.progress();
    }

    /// Mostly one of a few, so that hits and owed pages are met.
    fn any_page(&mut self) -> u32 {
        let few = (self.both.state.settings.slots + 2).min(self.both.state.end);
        let most = if self.random.below(4) == 0 { self.both.state.end } else { few };
        self.random.below(most)
    }

    /// Writes a span of a page; whether it was accepted. What may refuse it is the want of a slot.
    pub fn write(&mut self, page: u32) -> Result<bool, String> {
        let (offset, length) = self.random.span(self.settings().page_size);
        let from = self.random.bytes(length);
        let (number, _) =
            self.both.call(|recorder, state, lent| (recorder.write(state, lent, page, offset, &from), Vec::new()))?;
        self.counted(number);
        match number {
            0 => self.model.write(page, offset, &from),
            7 if self.model.is_metadata(page) => {}
            _ => return Err(format!("a write to page {page} answers {number}")),
        }
        Ok(number == 0)
    }

    fn read(&mut self) -> Result<(), String> {
        let page = self.any_page();
        let (offset, length) = self.random.span(self.settings().page_size);
        let (number, handed) = self.both.call(|recorder, state, lent| {
            let mut into = vec![0xee; length as usize];
            (recorder.read(state, lent, page, offset, &mut into), into)
        })?;
        self.counted(number);
        if number != 0 || handed != self.model.span(page, offset, length) {
            return Err(format!("a read of page {page} answers {number}, or other bytes than were written"));
        }
        Ok(())
    }

    pub fn grow(&mut self) -> Result<(), String> {
        let kind = u32::from(self.random.below(8) == 0);
        let full = self.both.state.end == self.settings().capacity;
        let (number, _) = self.both.call(|recorder, state, lent| (recorder.grow(state, lent, kind), Vec::new()))?;
        self.counted(number);
        match number {
            0 => self.model.grow(kind as u8),
            8 if full => {}
            7 if kind == 0 && !full => {}
            _ => return Err(format!("grow answers {number}")),
        }
        Ok(())
    }

    /// A page, a span or a kind that is none.
    fn bad_call(&mut self) -> Result<(), String> {
        let (end, size) = (self.both.state.end, self.settings().page_size);
        let far = 1 + self.random.below(70_000);
        let (page, offset, length, wanted) = match self.random.below(4) {
            0 => (end - 1 + far, 0, 1, 4),
            1 => (0, size, 1, 6),
            2 => (0, u32::MAX - far, far as usize, 6),
            _ => (0, 0, 0, 6),
        };
        let (number, _) = self.both.call(|recorder, state, lent| {
            let mut into = vec![0xee; length];
            (recorder.read(state, lent, page, offset, &mut into), into)
        })?;
        self.counted(number);
        let (kind, _) = self.both.call(|recorder, state, lent| (recorder.grow(state, lent, 1 + far), Vec::new()))?;
        self.counted(kind);
        if (number, kind) != (wanted, 5) {
            return Err(format!("bad calls answer {number} and {kind}, not {wanted} and 5"));
        }
        Ok(())
    }

    pub fn close(&mut self) -> Result<(), String> {
        self.desks.hurry(&self.both, &self.model, &mut self.random, self.tally)?;
        let (number, _) = self.both.call(|recorder, state, lent| (recorder.close(state, lent), Vec::new()))?;
        self.counted(number);
        if number != 0 {
            return Err(format!("close answers {number}"));
        }
        self.model.close();
        self.tally.closes += 1;
        self.desks.follow(&self.both, &self.model, &mut self.random, self.tally)?;
        for _ in 0..4 {
            self.desks.read(&self.both, &self.model, &mut self.random, self.tally)?;
        }
        Ok(())
    }
}

#[cfg(test)]
mod tests {
    use super::play;
    use crate::stop::Stop;
    use crate::tally::Tally;
    use crate::SETTINGS;

    /// A short recording at each of the settings, with the bounds reached where they can be.
    #[test]
    fn recordings_agree() {
        let (stop, mut tally) = (Stop::never(), Tally::new());
        for (seed, settings) in (1..).zip(SETTINGS) {
            play(settings, seed, 3000, &stop, &mut tally).expect("no difference");
        }
        let filled = SETTINGS.iter().filter(|settings| settings.slots >= settings.lag).count() as u64;
        assert!(tally.full_indexes >= filled && tally.full_places >= filled);
        assert!(tally.reads_by_lag.iter().all(|&reads| reads > 0), "{:?}", tally.reads_by_lag);
    }
}
