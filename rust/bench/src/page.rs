//! The page docs/BENCH.md: what a run said stands there between two marks. So no figure on the page is typed by hand.

use std::fs;
use std::io;
use std::path::Path;

const BEGIN: &str = "<!-- what `make bench` printed -->\n";
const END: &str = "<!-- end -->";

/// The page with what was said in place of what stood between the marks.
fn renewed(page: &str, said: &str) -> Option<String> {
    let (before, rest) = page.split_once(BEGIN)?;
    let (_, after) = rest.split_once(END)?;
    Some(format!("{before}{BEGIN}```text\n{said}```\n{END}{after}"))
}

pub fn renew(file: &Path, said: &str) -> io::Result<()> {
    let page = fs::read_to_string(file)?;
    let renewed = renewed(&page, said).ok_or_else(|| io::Error::other("the marks are missing"))?;
    fs::write(file, renewed)
}

#[cfg(test)]
mod tests {
    use super::{renewed, BEGIN, END};

    #[test]
    fn only_what_stands_between_the_marks_is_renewed() {
        let page = |between: &str| format!("before\n{BEGIN}{between}{END}\nafter\n");
        let wanted = page("```text\na row\n```\n");
        assert_eq!(renewed(&page(""), "a row\n"), Some(wanted.clone()));
        assert_eq!(renewed(&page("```text\nan old row\n```\n"), "a row\n"), Some(wanted));
        assert_eq!(renewed("a page without marks", "a row\n"), None);
    }
}
