//! Reads the `FIELD=VALUE` words of a state line. The listing of `fields` is written by the same
//! rules, so any listing but `none` can be read back.

use crate::fields::{Counts, Entry, Fields, Retired};

const NEEDED: [&str; 6] = ["P", "S", "L", "E", "e", "tick"];

/// The state named by the words after `state`.
pub fn parse<'a>(words: impl Iterator<Item = &'a str>) -> Result<Fields, String> {
    let mut fields = Fields::default();
    let mut seen: Vec<&str> = Vec::new();
    for word in words {
        let (name, value) = word.split_once('=').ok_or_else(|| format!("no '=' in '{word}'"))?;
        if seen.contains(&name) {
            return Err(format!("field {name} stands twice"));
        }
        set(&mut fields, name, value)?;
        seen.push(name);
    }
    match NEEDED.iter().find(|name| !seen.contains(name)) {
        Some(name) => Err(format!("field {name} is missing")),
        None => Ok(fields),
    }
}

fn set(fields: &mut Fields, name: &str, value: &str) -> Result<(), String> {
    match name {
        "P" => fields.page_size = number(value)?,
        "S" => fields.slot_count = number(value)?,
        "L" => fields.lag = number(value)?,
        "E" => fields.capacity = number(value)?,
        "e" => fields.end = number(value)?,
        "tick" => fields.tick = number(value)?,
        "slots" => fields.slots = slots(value)?,
        "changed" => fields.changed = list(value, number)?,
        "order" => fields.order = list(value, number)?,
        "entries" => fields.entries = list(value, entry)?,
        "retired" => fields.retired = list(value, retired)?,
        "meta" => fields.meta = counts(value)?,
        "raw" => fields.raw = counts(value)?,
        _ => return Err(format!("unknown field '{name}'")),
    }
    Ok(())
}

fn list<T>(value: &str, item: impl Fn(&str) -> Result<T, String>) -> Result<Vec<T>, String> {
    if value == "." {
        return Ok(Vec::new());
    }
    value.split(',').map(item).collect()
}

/// A decimal number without a sign.
pub fn number(word: &str) -> Result<u64, String> {
    let digits = !word.is_empty() && word.bytes().all(|byte| byte.is_ascii_digit());
    word.parse().ok().filter(|_| digits).ok_or_else(|| format!("'{word}' is no number"))
}

/// Empty slots at the end say nothing.
fn slots(value: &str) -> Result<Vec<Option<u64>>, String> {
    let mut slots = list(value, slot)?;
    slots.truncate(slots.iter().rposition(Option::is_some).map_or(0, |last| last + 1));
    Ok(slots)
}

fn slot(word: &str) -> Result<Option<u64>, String> {
    if word == "-" {
        return Ok(None);
    }
    number(word).map(Some)
}

fn entry(word: &str) -> Result<Entry, String> {
    let parts: Vec<&str> = word.split(':').collect();
    let &[page, place, last_change, entry_tick, checksum] = parts.as_slice() else {
        return Err(format!("entry '{word}' has not five parts"));
    };
    Ok(Entry {
        page: number(page)?,
        place: number(place)?,
        last_change: number(last_change)?,
        entry_tick: number(entry_tick)?,
        checksum: checksum_digits(checksum)?,
    })
}

fn checksum_digits(word: &str) -> Result<u32, String> {
    let digits = word.len() == 8 && word.bytes().all(|byte| byte.is_ascii_hexdigit());
    u32::from_str_radix(word, 16)
        .ok()
        .filter(|_| digits)
        .ok_or_else(|| format!("'{word}' is not 8 hex digits"))
}

fn retired(word: &str) -> Result<Retired, String> {
    let (place, tick) = word.split_once(':').ok_or_else(|| format!("no ':' in '{word}'"))?;
    Ok(Retired { place: number(place)?, tick: number(tick)? })
}

fn counts(value: &str) -> Result<Counts, String> {
    let counts = list(value, number)?;
    Counts::try_from(counts).map_err(|_| format!("'{value}' is not five counts"))
}

#[cfg(test)]
mod tests {
    use super::parse;

    fn parsed(line: &str) -> Result<String, String> {
        parse(line.split_whitespace()).map(|fields| fields.listing())
    }

    #[test]
    fn a_listing_reads_back() {
        let line =
            "P=512 S=2 L=3 E=4 e=4 tick=5 slots=-,2 changed=1 order=1 entries=2:1:5:4:0badcafe \
                    retired=0:5 meta=1,2,3,4,5 raw=0,0,0,0,6";
        assert_eq!(parsed(line).as_deref(), Ok(line));
    }

    #[test]
    fn fields_left_out_are_empty_or_zero() {
        let line = "tick=7 P=1 S=2 L=3 E=4 e=5";
        let listing = "P=1 S=2 L=3 E=4 e=5 tick=7 slots=. changed=. order=. entries=. retired=. \
                       meta=0,0,0,0,0 raw=0,0,0,0,0";
        assert_eq!(parsed(line).as_deref(), Ok(listing));
    }

    #[test]
    fn the_listing_is_canonical() {
        // L = 3, closed tick 5: the next close is 6 and may reuse what was retired at 3 or before.
        let line = "P=512 S=2 L=3 E=4 e=4 tick=5 slots=7,-,- changed=2,0,2 order=0 \
                    retired=4:5,2:4,1:3,0:0";
        let listing =
            "P=512 S=2 L=3 E=4 e=4 tick=5 slots=7 changed=0,2 order=0 entries=. retired=2:4,4:5 \
                       meta=0,0,0,0,0 raw=0,0,0,0,0";
        assert_eq!(parsed(line).as_deref(), Ok(listing));
    }

    #[test]
    fn bad_lines() {
        let good = "P=512 S=2 L=3 E=4 e=4 tick=5";
        assert!(parsed("P=512 S=2 L=3 E=4 e=4").is_err());
        for more in [
            "P=1",
            "slots=",
            "meta=1,2,3,4",
            "entries=1:2:3:4",
            "entries=1:2:3:4:12345",
            "retired=4",
            "x=1",
            "order=-1",
            "changed=+1",
            "word",
        ] {
            assert!(parsed(&format!("{good} {more}")).is_err(), "{more}");
        }
    }
}
