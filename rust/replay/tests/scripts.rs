//! The scripts in scripts/ give the outputs beside them, and the answers that their comments
//! derive.

mod common;

use std::collections::BTreeMap;

use replay::output::replay;
use replay::script::{parse_line, Item};

/// The example of the format's description has no comments.
const WITHOUT_COMMENTS: &str = "example";

fn names() -> Vec<String> {
    let mut names: Vec<String> = std::fs::read_dir(common::scripts_folder())
        .expect("the folder")
        .filter_map(|file| file.expect("a file").file_name().into_string().ok())
        .filter_map(|name| name.strip_suffix(".script").map(String::from))
        .collect();
    names.sort();
    names
}

#[test]
fn outputs_are_as_expected() {
    for name in names() {
        let mut out = Vec::new();
        replay(common::plain(), &common::script_file(&format!("{name}.script")), &mut out)
            .expect("a script");
        let out = String::from_utf8(out).expect("text");
        let expected = common::script_file(&format!("{name}.expected"));
        for (line, must) in out.lines().zip(expected.lines()) {
            assert_eq!(line, must, "{name}");
        }
        assert_eq!(out.lines().count(), expected.lines().count(), "{name}");
    }
}

/// `# NUMBER: why` after each call is what the rules give, worked out by hand.
#[test]
fn expected_answers_are_the_derived_ones() {
    for name in names().into_iter().filter(|name| name != WITHOUT_COMMENTS) {
        let answers = expected_answers(&name);
        let text = common::script_file(&format!("{name}.script"));
        let calls = text.lines().enumerate().filter(|(_, line)| is_call(line));
        let derived: BTreeMap<usize, u32> =
            calls.map(|(i, line)| (i + 1, derived_answer(&name, line))).collect();
        assert_eq!(derived, answers, "{name}");
    }
}

fn expected_answers(name: &str) -> BTreeMap<usize, u32> {
    let expected = common::script_file(&format!("{name}.expected"));
    let number = |word: &str| word.parse().expect("a number");
    expected
        .lines()
        .map(|line| line.split(' ').collect::<Vec<&str>>())
        .map(|words| (number(words[0]) as usize, number(words[2])))
        .collect()
}

fn is_call(line: &str) -> bool {
    matches!(parse_line(line), Ok(Some(Item::Call(_))))
}

fn derived_answer(name: &str, line: &str) -> u32 {
    let comment = line.split_once("# ").map(|(_, comment)| comment);
    let number = comment
        .and_then(|comment| comment.split_once(':'))
        .and_then(|(number, _)| number.parse().ok());
    number.unwrap_or_else(|| panic!("{name}: no answer is derived in '{line}'"))
}
