//! The proved version does what the plain one does: on the directed scripts, and on generated ones from fixed seeds, compared
//! after every call to the last byte. It prints the lines that stand beside the directed scripts, and reaches every situation.

mod common;

use common::{plain, proved};
use replay::compare::{compare, Named, Outcome};
use replay::coverage::{observe_script, Tally};
use replay::generate::generate;
use replay::output::replay;

const SEEDS: u64 = 300;
const CALLS: usize = 600;

fn same(name: &str, script: &str) -> usize {
    let two =
        [Named { name: "plain", version: plain() }, Named { name: "proved", version: proved() }];
    match compare(two, script).expect("a script") {
        Outcome::Same { calls } => calls,
        Outcome::Different(difference) => panic!("{name}: {difference}"),
    }
}

fn directed() -> Vec<String> {
    let files = std::fs::read_dir(common::scripts_folder()).expect("the folder");
    let names = files.filter_map(|file| file.expect("a file").file_name().into_string().ok());
    let mut names: Vec<String> =
        names.filter_map(|name| name.strip_suffix(".script").map(String::from)).collect();
    names.sort();
    names
}

#[test]
fn directed_scripts_agree() {
    for name in directed() {
        assert!(same(&name, &common::script_file(&format!("{name}.script"))) > 0);
    }
}

#[test]
fn directed_scripts_print_the_lines_beside_them() {
    for name in directed() {
        let mut out = Vec::new();
        replay(proved(), &common::script_file(&format!("{name}.script")), &mut out)
            .expect("a script");
        let out = String::from_utf8(out).expect("text");
        assert_eq!(out, common::script_file(&format!("{name}.expected")), "{name}");
    }
}

#[test]
fn generated_scripts_agree() {
    for seed in 1..=SEEDS {
        assert_eq!(same(&format!("seed {seed}"), &generate(seed, CALLS as u64)), CALLS);
    }
}

#[test]
fn twelve_seeds_reach_every_situation() {
    let mut tally = Tally::new();
    for seed in 1..=12 {
        observe_script(proved(), &generate(seed, 1500), &mut tally).expect("a script");
    }
    assert!(tally.missing().is_empty(), "{}", tally.report());
}
