//! What was done so far, told every few seconds and at the end.

use std::time::{Duration, Instant};

const BETWEEN: Duration = Duration::from_secs(5);

pub struct Tally {
    began: Instant,
    told: Instant,
    scripts: u64,
    script_calls: u64,
    pub recordings: u64,
    pub recorder_calls: u64,
    pub refused: u64,
    pub closes: u64,
    pub desk_calls: u64,
    /// How many recordings had X entries, and M places in use, at a time.
    pub full_indexes: u64,
    pub full_places: u64,
    /// Desk reads by how far the held tick lay behind.
    pub reads_by_lag: [u64; 9],
}

impl Tally {
    pub fn new() -> Tally {
        let now = Instant::now();
        Tally {
            began: now,
            told: now,
            scripts: 0,
            script_calls: 0,
            recordings: 0,
            recorder_calls: 0,
            refused: 0,
            closes: 0,
            desk_calls: 0,
            full_indexes: 0,
            full_places: 0,
            reads_by_lag: [0; 9],
        }
    }

    pub fn script(&mut self, calls: u64) {
        self.scripts += 1;
        self.script_calls += calls;
    }

    /// A line, if the last one was told long enough ago.
    pub fn progress(&mut self) {
        if self.told.elapsed() >= BETWEEN {
            self.told = Instant::now();
            println!("soak: {}", self.line());
        }
    }

    fn line(&self) -> String {
        format!(
            "{} s, {} scripts of {} calls, {} recordings of {} recorder calls ({} refused, {} closes) and {} desk calls",
            self.began.elapsed().as_secs(),
            self.scripts,
            self.script_calls,
            self.recordings,
            self.recorder_calls,
            self.refused,
            self.closes,
            self.desk_calls
        )
    }

    pub fn summary(&self, difference: Option<&String>) {
        println!("soak: desk reads at lag 0 to 8: {:?}", self.reads_by_lag);
        println!(
            "soak: index full (X entries) {} times, places full (M) {} times",
            self.full_indexes, self.full_places
        );
        match difference {
            Some(difference) => println!("soak: {}; a difference: {difference}", self.line()),
            None => println!("soak: {}; no difference", self.line()),
        }
    }
}
