//! The listing of a side file that document 01 gives: closed tick, e and the number of entries,
//! then the entries. Scripts whose outcome was worked out by hand are compared with it.

use crate::sidefile::{rows, Header, HEADER, ROW};
use crate::version::Version;

/// The longest header and index: the largest settings have 144 entries.
const LONGEST_INDEX: usize = HEADER + ROW * 144;

/// The listing, each line with its line feed; a refused file's is the word and take's number.
pub fn sidelist(version: Version, side: &[u8]) -> String {
    let mut held = vec![0; LONGEST_INDEX];
    match (version.desk.take(side, &mut held), Header::decode(&held)) {
        (0, Some(header)) => accepted(&held, &header),
        (number, _) => format!("refused {number}\n"),
    }
}

fn accepted(held: &[u8], header: &Header) -> String {
    let Header { closed, end, count, .. } = header;
    let mut text = format!("tick {closed} end {end} entries {count}\n");
    for row in rows(held, *count) {
        text += &format!("{} {} {}\n", row.page, row.place, row.last_change);
    }
    text
}
