//! The program itself: its words, its output and its exit status.

mod common;

use std::io::Write;
use std::process::{Command, Output, Stdio};

fn replay(words: &[&str]) -> Output {
    Command::new(env!("CARGO_BIN_EXE_replay")).args(words).output().expect("the program")
}

fn replay_text(words: &[&str], script: &str) -> Output {
    let mut child = Command::new(env!("CARGO_BIN_EXE_replay"))
        .args(words)
        .stdin(Stdio::piped())
        .stdout(Stdio::piped())
        .stderr(Stdio::piped())
        .spawn()
        .expect("the program");
    child.stdin.take().expect("its input").write_all(script.as_bytes()).expect("the script");
    child.wait_with_output().expect("its output")
}

fn file(name: &str) -> String {
    common::scripts_folder().join(name).to_string_lossy().into_owned()
}

fn text(bytes: &[u8]) -> String {
    String::from_utf8_lossy(bytes).into_owned()
}

fn assert_error(output: &Output, message: &str) {
    assert_eq!(output.status.code(), Some(2));
    let error = text(&output.stderr);
    assert!(error.contains(message), "{error}");
    assert_eq!(error.lines().count(), 1, "{error}");
}

#[test]
fn the_example_from_a_file_and_from_standard_input() {
    let expected = common::script_file("example.expected");
    for words in
        [vec![file("example.script")], vec!["--on".into(), "plain".into(), file("example.script")]]
    {
        let words: Vec<&str> = words.iter().map(String::as_str).collect();
        let output = replay(&words);
        assert_eq!((output.status.code(), text(&output.stdout)), (Some(0), expected.clone()));
    }
    let output = replay_text(&["-"], &common::script_file("example.script"));
    assert_eq!((output.status.code(), text(&output.stdout)), (Some(0), expected));
}

#[test]
fn an_error_in_a_script_names_its_line() {
    assert_error(&replay_text(&["-"], "close\n# fine\nclse\n"), "line 3: unknown word 'clse'");
    assert_error(&replay_text(&["-"], "buffer base 4 0\npoke base 3 0102\n"), "line 2: ");
    assert_error(&replay_text(&["-"], "lend held 1\n"), "line 1: ");
    assert_error(&replay_text(&["--coverage", "-"], "close\nopen\n"), "line 2: ");
}

/// The lines before an error that only shows while playing are printed.
#[test]
fn output_before_an_error() {
    let output = replay_text(&["-"], "close\npoke base 0 00\n");
    let zeros =
        "base=00000000 side=00000000 pages=00000000 kinds=00000000 held=00000000 marks=00000000";
    // The listing before any open is the word none, whose CRC-32 is this.
    assert_eq!(
        text(&output.stdout),
        format!("1 close 3 {zeros} state={:08x}\n", replay::crc::crc32(b"none"))
    );
    assert_error(&output, "line 2: ");
}

#[test]
fn words_that_are_not_understood() {
    assert_error(&replay(&[]), "--help");
    assert_error(&replay(&["--generate", "1"]), "--help");
    assert_error(&replay(&["--generate", "one", "2"]), "'one' is no seed");
    assert_error(&replay(&["--on", "paper", "-"]), "no version is named 'paper'");
    assert_error(&replay(&["--coverage"]), "--help");
    assert_error(&replay(&["--compare"]), "--help");
    assert_error(&replay(&["--compare", "--generate", "1"]), "--help");
    assert_error(
        &replay(&["--compare", "--generate", "1", "many"]),
        "'many' is no number of calls",
    );
    assert_error(&replay(&["--compare", "no such file"]), "no such file");
    assert_error(&replay(&["no such file"]), "no such file");
    assert!(text(&replay(&["--help"]).stdout).starts_with("usage: replay"));
}

#[test]
fn a_script_and_its_coverage() {
    let script = replay(&["--generate", "3", "200"]);
    assert_eq!(script.status.code(), Some(0));
    assert_eq!(text(&script.stdout), replay::generate::generate(3, 200));
    let report = replay_text(&["--coverage", "-"], &text(&script.stdout));
    assert_eq!(report.status.code(), Some(1), "200 calls cannot reach everything");
    assert!(text(&report.stdout).contains(" reached\nmissing: "));
}

#[test]
fn a_comparison_names_its_scripts() {
    let scripts = [file("example.script"), file("row-h.script")];
    let words: Vec<&str> =
        std::iter::once("--compare").chain(scripts.iter().map(String::as_str)).collect();
    let output = replay(&words);
    let printed = text(&output.stdout);
    assert_eq!(output.status.code(), Some(0), "{printed}");
    let lines: Vec<&str> = printed.lines().collect();
    assert_eq!(lines.len(), 2);
    for (line, script) in lines.iter().zip(&scripts) {
        assert!(
            line.starts_with(script.as_str()) && line.ends_with(" calls, no difference"),
            "{line}"
        );
    }
    let output = replay(&["--compare", "--generate", "3", "50"]);
    assert_eq!(output.status.code(), Some(0));
    assert_eq!(text(&output.stdout), "seed 3: 50 calls, no difference\n");
    assert_error(&replay_text(&["--compare", "-"], "close\nopen\n"), "line 2: ");
}
