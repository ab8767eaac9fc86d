//! Offsets and lengths inside a page, at its edges, and beyond them.

use super::draft::{hex, Draft};
use super::random::Random;

/// A span inside the page; the whole page and its last byte come often.
pub fn inside(random: &mut Random, page_size: u64) -> (u64, u64) {
    match random.below(8) {
        0 => (0, page_size),
        1 => (page_size - 1, 1),
        _ => {
            let offset = random.below(page_size);
            (offset, random.between(1, (page_size - offset).min(12)))
        }
    }
}

/// Spans that are empty or leave the page.
fn spans_outside(page_size: u64, inner: u64) -> [(u64, u64); 9] {
    let far = u64::from(u32::MAX);
    [
        (inner, 0),
        (page_size, 0),
        (0, page_size + 1),
        (1, page_size),
        (page_size, 1),
        (page_size - 1, 2),
        (inner, page_size + 1),
        (far, 1),
        (far, 0),
    ]
}

/// Their numbers, for a deck.
pub fn all_outside() -> Vec<usize> {
    (0..spans_outside(1, 0).len()).collect()
}

/// A span that is empty or leaves the page, for a read, write or deskread.
pub fn outside(draft: &mut Draft, word: &str, page_size: u64) -> (u64, u64) {
    let inner = draft.random.below(page_size);
    let deck = match word {
        "read" => &mut draft.decks.read_spans,
        "write" => &mut draft.decks.write_spans,
        _ => &mut draft.decks.desk_spans,
    };
    spans_outside(page_size, inner)[deck.draw(&mut draft.random)]
}

/// So many bytes as a write's data.
pub fn data(random: &mut Random, length: u64) -> String {
    match length {
        0 => ".".to_string(),
        1..=12 => hex(&(0..length).map(|_| random.below(256) as u8).collect::<Vec<u8>>()),
        _ => format!("@{length}:{}", random.below(256)),
    }
}
