//! Decks of chosen troubles. Drawing without putting back makes a script come by all of them before
//! one returns.

use super::random::Random;
use crate::buffers::Name;
use crate::judge::{Cause, Fault, Rule};

pub struct Deck<T> {
    all: Vec<T>,
    left: Vec<T>,
}

impl<T: Copy> Deck<T> {
    /// A deck of these cards, of which there must be some.
    pub fn new(all: Vec<T>) -> Deck<T> {
        Deck { all, left: Vec::new() }
    }

    pub fn draw(&mut self, random: &mut Random) -> T {
        if self.left.is_empty() {
            self.left = self.all.clone();
            random.shuffle(&mut self.left);
        }
        self.left.pop().unwrap_or(self.all[0])
    }
}

/// A call and up to two causes of refusal that it is put before.
#[derive(Clone, Copy, Debug)]
pub struct Hand {
    pub word: &'static str,
    pub causes: [Option<Cause>; 2],
}

impl Hand {
    pub fn one(word: &'static str, cause: Cause) -> Hand {
        Hand { word, causes: [Some(cause), None] }
    }

    pub fn has(&self, cause: Cause) -> bool {
        self.causes.contains(&Some(cause))
    }

    pub fn is_empty(&self) -> bool {
        self.causes == [None, None]
    }
}

/// All hands of none, one or two causes; those of none come so many times.
pub fn hands(arranged: &[(&'static str, &[Cause])], empty: usize) -> Vec<Hand> {
    let mut hands = Vec::new();
    for &(word, causes) in arranged {
        hands.extend((0..empty).map(|_| Hand { word, causes: [None, None] }));
        for (i, &first) in causes.iter().enumerate() {
            hands.push(Hand::one(word, first));
            hands.extend(
                causes[i + 1..]
                    .iter()
                    .map(|&second| Hand { word, causes: [Some(first), Some(second)] }),
            );
        }
    }
    hands
}

/// The decks a script draws from.
pub struct Decks {
    pub recorder: Deck<Hand>,
    pub rules: Deck<(&'static str, Rule)>,
    pub shorts: Deck<(&'static str, usize)>,
    pub desk: Deck<Hand>,
    pub faults: Deck<(&'static str, Name, Fault)>,
    pub opens: Deck<Hand>,
    pub settings: Deck<(char, u64)>,
    pub read_spans: Deck<usize>,
    pub write_spans: Deck<usize>,
    pub desk_spans: Deck<usize>,
}
