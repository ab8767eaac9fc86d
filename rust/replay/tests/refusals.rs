//! A refused call changes nothing: no byte of a lent slice, lent or not, nothing of the state, and
//! none of the digests of its output line.

mod common;

use replay::generate::generate;
use replay::output::replay;
use replay::run::Handed;

#[test]
fn a_refused_call_leaves_everything() {
    for seed in 200..206 {
        common::each_call(&generate(seed, 1500), |played| {
            if played.reply.number == 0 {
                return;
            }
            assert!(
                played.before == played.after,
                "seed {seed}, line {}, {:?}",
                played.line,
                played.call
            );
            match &played.reply.handed {
                Handed::Nothing => {}
                Handed::Dest(dest) => assert!(dest.iter().all(|&byte| byte == 0xee)),
                Handed::Found { source, offset, bytes } => {
                    assert_eq!((*source, *offset, bytes.len()), (0, 0, 0))
                }
            }
        });
    }
}

/// The same, seen in the printed lines: where no line stands between two calls, a refused one
/// repeats the digests of the one before it.
#[test]
fn the_line_of_a_refused_call_repeats_the_digests() {
    let mut compared = 0;
    for seed in 206..209 {
        let lines = printed(&generate(seed, 800));
        for pair in lines.windows(2) {
            let (before, after) = (&pair[0], &pair[1]);
            if after.number == before.number + 1 && after.answer != "0" {
                assert_eq!(before.digests, after.digests, "seed {seed}, line {}", after.number);
                compared += 1;
            }
        }
    }
    assert!(compared > 100, "only {compared} refused calls stand right after another call");
}

struct Printed {
    number: usize,
    answer: String,
    digests: String,
}

fn printed(text: &str) -> Vec<Printed> {
    let mut out = Vec::new();
    replay(common::plain(), text, &mut out).expect("a script");
    let out = String::from_utf8(out).expect("text");
    out.lines().map(split).collect()
}

fn split(line: &str) -> Printed {
    let words: Vec<&str> = line.splitn(4, ' ').collect();
    let digests = line.find(" base=").map(|at| line[at..].to_string()).expect("digests");
    Printed {
        number: words[0].parse().expect("a line number"),
        answer: words[2].to_string(),
        digests,
    }
}
