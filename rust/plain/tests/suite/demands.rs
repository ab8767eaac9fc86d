//! Two futures of one close: a desk that took at it gets equal answers from both while neither is
//! further than the lag, for every page but the raw ones of that tick, refusals included.

use crate::support::*;
use plain::*;

/// One random call, most of them changes. Answers whether it closed a tick.
fn random_call(random: &mut Random, bench: &mut Bench) -> bool {
    let s = bench.state.settings;
    let page = random.below(bench.state.end.max(1));
    let offset = random.below(s.page_size);
    let length = 1 + random.below(s.page_size - offset);
    match random.below(10) {
        0 => drop(bench.read(page, offset, length as usize)),
        1 => drop(bench.grow(random.below(2))),
        2..=7 => {
            let mut from = vec![0; length as usize];
            random.fill(&mut from);
            bench.write(page, offset, &from);
        }
        _ => {
            assert_eq!(bench.close(), 0, "no close of a recording is refused");
            return true;
        }
    }
    false
}

/// The desk's questions: each page up to three beyond the held end, with spans good and bad.
fn questions(s: Settings, end: u32) -> Vec<(u32, u32, u32)> {
    let mut questions = vec![(4_294_967_295, 0, 1), (end, 0, 0)];
    for page in 0..end + 3 {
        for (offset, length) in [
            (0, s.page_size),
            (7, 20),
            (s.page_size - 1, 1),
            (1, s.page_size),
            (3, 0),
        ] {
            questions.push((page, offset, length));
        }
    }
    questions
}

type Reply = (u32, u32, usize, Vec<u8>);

fn reply(bench: &Bench, held: &[u8], (page, offset, length): (u32, u32, u32)) -> Reply {
    let found = bench.desk_read(held, page, offset, length);
    (
        found.number,
        found.source,
        found.offset,
        found.bytes.to_vec(),
    )
}

/// Lets a recording go its own way for as long as the lag lasts and compares each answer with that
/// at the close.
fn go_on(mut bench: Bench, held: &[u8], asked: &[((u32, u32, u32), Reply)], mut random: Random) {
    let last = bench.state.closed + bench.state.settings.lag;
    for _ in 0..120 {
        if bench.state.closed == last && random.chance(4) {
            return;
        }
        let before = bench.clone();
        if random_call(&mut random, &mut bench) && bench.state.closed > last {
            bench = before;
            continue;
        }
        for (question, expected) in asked {
            assert_eq!(&reply(&bench, held, *question), expected);
        }
    }
}

fn two_futures(seed: u64, s: Settings) {
    let mut random = Random::new(seed);
    let end = random.below(s.capacity.min(6) + 1);
    let kinds: Vec<u8> = (0..end).map(|_| u8::from(random.chance(6))).collect();
    let mut bench = Bench::closed(s, &kinds);
    random.fill(&mut bench.base);
    assert_eq!(bench.open(s, end, 17), 0);
    // The open counts as a close, so a past of no call is one of the pasts.
    let mut closes = random.below(12);
    while closes > 0 {
        closes -= u32::from(random_call(&mut random, &mut bench));
    }
    let held = bench.take();
    let end = bench.state.end;
    let is_raw = |page: u32| page < end && bench.kinds[page as usize] == 1;
    let asked: Vec<((u32, u32, u32), Reply)> = questions(s, end)
        .into_iter()
        .filter(|(page, _, _)| !is_raw(*page))
        .map(|question| (question, reply(&bench, &held, question)))
        .collect();
    for future in 0..2 {
        go_on(
            bench.clone(),
            &held,
            &asked,
            Random::new(seed * 1000 + future),
        );
    }
}

#[test]
fn two_futures_answer_alike() {
    for seed in 0..6 {
        two_futures(seed, settings(512, 1, 3, 6));
        two_futures(seed + 10, settings(512, 2, 3, 9));
        two_futures(seed + 20, settings(512, 3, 8, 9));
    }
    two_futures(30, settings(512, 16, 3, 12));
    two_futures(31, settings(1024, 4, 5, 8));
    two_futures(32, settings(2048, 2, 4, 6));
    two_futures(33, settings(4096, 2, 3, 5));
}
