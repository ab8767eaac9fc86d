//! When to end: after a time, or on the signal of Ctrl-C or of `kill`.

use std::sync::atomic::{AtomicBool, Ordering};
use std::time::{Duration, Instant};

static ASKED: AtomicBool = AtomicBool::new(false);

const INTERRUPT: i32 = 2;
const TERMINATE: i32 = 15;

extern "C" {
    /// The C library's.
    fn signal(number: i32, handler: extern "C" fn(i32)) -> usize;
}

extern "C" fn ask(_: i32) {
    ASKED.store(true, Ordering::Relaxed);
}

pub struct Stop {
    at: Option<Instant>,
}

impl Stop {
    pub fn after(limit: Option<Duration>) -> Stop {
        for number in [INTERRUPT, TERMINATE] {
            // SAFETY: the handler only stores to an atomic.
            unsafe { signal(number, ask) };
        }
        Stop { at: limit.map(|limit| Instant::now() + limit) }
    }

    #[cfg(test)]
    pub fn never() -> Stop {
        Stop { at: None }
    }

    pub fn is_due(&self) -> bool {
        ASKED.load(Ordering::Relaxed) || self.at.is_some_and(|at| Instant::now() >= at)
    }
}
