//! The text of a call script, read into items: the lines that prepare and the lines that call.

use crate::buffers::Name;
use crate::fields::Fields;
use crate::pattern::pattern;
use crate::state_line::{self, number};
use crate::version::Settings;

/// The longest buffer or slice a script may ask for: four times the largest base.
const LONGEST: u64 = 1 << 30;

/// One call of the layer with its arguments.
#[derive(Clone, Debug, PartialEq, Eq)]
pub enum Call {
    Open { settings: Settings, end: u32, tick: u32 },
    Read { page: u32, offset: u32, length: usize },
    Write { page: u32, offset: u32, data: Vec<u8> },
    Grow { kind: u32 },
    Close,
    Take,
    Refresh,
    DeskRead { page: u32, offset: u32, length: u32 },
}

impl Call {
    /// The call's word in scripts and in output lines.
    pub fn word(&self) -> &'static str {
        match self {
            Call::Open { .. } => "open",
            Call::Read { .. } => "read",
            Call::Write { .. } => "write",
            Call::Grow { .. } => "grow",
            Call::Close => "close",
            Call::Take => "take",
            Call::Refresh => "refresh",
            Call::DeskRead { .. } => "deskread",
        }
    }
}

/// What one line says.
#[derive(Clone, Debug, PartialEq, Eq)]
pub enum Item {
    Buffer {
        name: Name,
        length: usize,
        seed: u64,
    },
    /// Lend the first so many bytes, or all.
    Lend {
        name: Name,
        length: Option<usize>,
    },
    Poke {
        name: Name,
        offset: usize,
        data: Vec<u8>,
    },
    State(Box<Fields>),
    Call(Call),
}

/// An item and the number of its line, from 1.
#[derive(Clone, Debug, PartialEq, Eq)]
pub struct Line {
    pub number: usize,
    pub item: Item,
}

/// What is wrong with a script, and where.
#[derive(Clone, Debug, PartialEq, Eq)]
pub struct ScriptError {
    pub line: usize,
    pub message: String,
}

impl std::fmt::Display for ScriptError {
    fn fmt(&self, f: &mut std::fmt::Formatter<'_>) -> std::fmt::Result {
        write!(f, "line {}: {}", self.line, self.message)
    }
}

/// The items of a whole script; lines without one are left out.
pub fn parse(text: &str) -> Result<Vec<Line>, ScriptError> {
    let mut lines = Vec::new();
    for (i, text) in text.lines().enumerate() {
        let number = i + 1;
        match parse_line(text) {
            Ok(Some(item)) => lines.push(Line { number, item }),
            Ok(None) => {}
            Err(message) => return Err(ScriptError { line: number, message }),
        }
    }
    Ok(lines)
}

/// The item of one line; none if it is blank or a comment.
pub fn parse_line(text: &str) -> Result<Option<Item>, String> {
    let told = text.split('#').next().unwrap_or("");
    let words: Vec<&str> = told.split_whitespace().collect();
    match words.split_first() {
        None => Ok(None),
        Some((&"state", rest)) => {
            let fields = state_line::parse(rest.iter().copied())?;
            Ok(Some(Item::State(Box::new(fields))))
        }
        Some((word, rest)) => item(word, rest).map(Some),
    }
}

fn item(word: &str, rest: &[&str]) -> Result<Item, String> {
    match (word, rest) {
        ("buffer", &[name, size, seed]) => Ok(Item::Buffer {
            name: Name::parse(name)?,
            length: length(size)?,
            seed: number(seed)?,
        }),
        ("lend", &[name, "all"]) => Ok(Item::Lend { name: Name::parse(name)?, length: None }),
        ("lend", &[name, size]) => {
            Ok(Item::Lend { name: Name::parse(name)?, length: Some(length(size)?) })
        }
        ("poke", &[name, offset, bytes]) => {
            Ok(Item::Poke { name: Name::parse(name)?, offset: length(offset)?, data: data(bytes)? })
        }
        _ => call(word, rest).map(Item::Call),
    }
}

fn call(word: &str, rest: &[&str]) -> Result<Call, String> {
    match (word, rest) {
        ("open", &[page_size, slots, lag, capacity, end, tick]) => Ok(Call::Open {
            settings: Settings {
                page_size: narrow(page_size)?,
                slots: narrow(slots)?,
                lag: narrow(lag)?,
                capacity: narrow(capacity)?,
            },
            end: narrow(end)?,
            tick: narrow(tick)?,
        }),
        ("read", &[page, offset, size]) => {
            Ok(Call::Read { page: narrow(page)?, offset: narrow(offset)?, length: length(size)? })
        }
        ("write", &[page, offset, bytes]) => {
            Ok(Call::Write { page: narrow(page)?, offset: narrow(offset)?, data: data(bytes)? })
        }
        ("grow", &[kind]) => Ok(Call::Grow { kind: narrow(kind)? }),
        ("close", &[]) => Ok(Call::Close),
        ("take", &[]) => Ok(Call::Take),
        ("refresh", &[]) => Ok(Call::Refresh),
        ("deskread", &[page, offset, size]) => Ok(Call::DeskRead {
            page: narrow(page)?,
            offset: narrow(offset)?,
            length: narrow(size)?,
        }),
        _ => Err(wrong_words(word)),
    }
}

fn wrong_words(word: &str) -> String {
    const WORDS: [&str; 11] = [
        "buffer", "lend", "poke", "open", "read", "write", "grow", "close", "take", "refresh",
        "deskread",
    ];
    if WORDS.contains(&word) {
        format!("wrong number of words after '{word}'")
    } else {
        format!("unknown word '{word}'")
    }
}

/// A number as the calls take it, in 32 bits.
fn narrow(word: &str) -> Result<u32, String> {
    u32::try_from(number(word)?).map_err(|_| format!("{word} is above 4294967295"))
}

fn length(word: &str) -> Result<usize, String> {
    let wide = number(word)?;
    usize::try_from(wide)
        .ok()
        .filter(|_| wide <= LONGEST)
        .ok_or_else(|| format!("{word} is above {LONGEST}"))
}

/// Byte data: `.` for none, `@LENGTH:SEED` for a pattern, else hex.
fn data(word: &str) -> Result<Vec<u8>, String> {
    if word == "." {
        return Ok(Vec::new());
    }
    if let Some(rest) = word.strip_prefix('@') {
        let (size, seed) = rest.split_once(':').ok_or_else(|| format!("no ':' in '{word}'"))?;
        return Ok(pattern(length(size)?, number(seed)?));
    }
    hex(word).ok_or_else(|| format!("'{word}' is no byte data"))
}

fn hex(word: &str) -> Option<Vec<u8>> {
    let digits: Vec<u32> = word.chars().map(|digit| digit.to_digit(16)).collect::<Option<_>>()?;
    if !digits.len().is_multiple_of(2) {
        return None;
    }
    Some(digits.chunks(2).map(|pair| (pair[0] * 16 + pair[1]) as u8).collect())
}

#[cfg(test)]
mod tests {
    use super::*;

    fn only(text: &str) -> Result<Item, String> {
        parse_line(text).map(|item| item.expect("an item"))
    }

    #[test]
    fn comments_and_blank_lines_count_as_lines() {
        let lines = parse("# head\n\n  close # tick 1\ntake\n").expect("a script");
        let numbers: Vec<usize> = lines.iter().map(|line| line.number).collect();
        assert_eq!(numbers, [3, 4]);
        assert_eq!(lines[0].item, Item::Call(Call::Close));
    }

    #[test]
    fn data_forms() {
        assert_eq!(
            only("write 1 2 ."),
            Ok(Item::Call(Call::Write { page: 1, offset: 2, data: vec![] }))
        );
        assert_eq!(
            only("write 1 2 00fF"),
            Ok(Item::Call(Call::Write { page: 1, offset: 2, data: vec![0, 255] }))
        );
        assert_eq!(
            only("poke held 3 @2:1"),
            Ok(Item::Poke { name: Name::Held, offset: 3, data: vec![37, 44] })
        );
    }

    #[test]
    fn errors_name_the_line() {
        let error = parse("close\nopne 1\n").expect_err("an error");
        assert_eq!(error.to_string(), "line 2: unknown word 'opne'");
        for bad in [
            "read 1 2",
            "close 1",
            "write 0 0 abc",
            "write 0 0 zz",
            "grow 4294967296",
            "grow -1",
            "grow 1.0",
            "buffer bass 1 1",
            "lend base 1073741825",
            "poke base 0 @5",
            "state P=1",
        ] {
            assert!(parse_line(bad).is_err(), "{bad}");
        }
    }
}
