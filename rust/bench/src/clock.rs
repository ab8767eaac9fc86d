//! Times of one call, in nanoseconds: the lowest of many runs. The runs of two versions alternate, so that a change of the
//! machine's clock meets both.

use std::time::Instant;

/// The lowest times of the proved version and of the one beside it.
#[derive(Clone, Copy)]
pub struct Pair {
    pub proved: f64,
    pub beside: f64,
}

impl Pair {
    pub fn ratio(self) -> f64 {
        self.proved / self.beside
    }
}

const RUNS: usize = 61;
const RUN_NANOSECONDS: f64 = 400_000.0;
const SINGLE_CALLS: usize = 3000;

/// Two calls that can be made again and again.
pub fn lowest(mut proved: impl FnMut(), mut beside: impl FnMut()) -> Pair {
    let calls = calls_of_a_run(&mut beside);
    let mut best = Pair { proved: f64::MAX, beside: f64::MAX };
    for _ in 0..RUNS {
        best.proved = best.proved.min(time(calls, &mut proved));
        best.beside = best.beside.min(time(calls, &mut beside));
    }
    best
}

/// Two calls before which something must be made ready: each closure makes it ready and answers what `once` says of its call.
pub fn lowest_of_single(mut proved: impl FnMut() -> f64, mut beside: impl FnMut() -> f64) -> Pair {
    let mut best = Pair { proved: f64::MAX, beside: f64::MAX };
    for _ in 0..SINGLE_CALLS {
        best.proved = best.proved.min(proved());
        best.beside = best.beside.min(beside());
    }
    best
}

/// The time of one call.
pub fn once(call: impl FnOnce()) -> f64 {
    let began = Instant::now();
    call();
    began.elapsed().as_nanos() as f64
}

/// So many that a run is long beside the reading of the clock.
fn calls_of_a_run(call: &mut impl FnMut()) -> usize {
    let one = time(20, call).max(1.0);
    ((RUN_NANOSECONDS / one) as usize).clamp(20, 20_000)
}

fn time(calls: usize, call: &mut impl FnMut()) -> f64 {
    let began = Instant::now();
    for _ in 0..calls {
        call();
    }
    began.elapsed().as_nanos() as f64 / calls as f64
}
