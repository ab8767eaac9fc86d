//! The list of situations with their counts, and the report.

use std::collections::BTreeMap;

/// How often each situation was reached.
pub struct Tally {
    names: Vec<String>,
    counts: BTreeMap<String, u64>,
}

impl Tally {
    /// The whole list, nothing reached.
    pub fn new() -> Tally {
        Tally { names: super::names(), counts: BTreeMap::new() }
    }

    /// Counts a situation. What is not in the list is kept out of the report.
    pub fn hit(&mut self, name: impl Into<String>) {
        *self.counts.entry(name.into()).or_insert(0) += 1;
    }

    /// Counts a situation if it was reached.
    pub fn hit_if(&mut self, reached: bool, name: impl Into<String>) {
        if reached {
            self.hit(name);
        }
    }

    pub fn names(&self) -> &[String] {
        &self.names
    }

    pub fn count(&self, name: &str) -> u64 {
        self.counts.get(name).copied().unwrap_or(0)
    }

    /// The situations not reached, in the order of the list.
    pub fn missing(&self) -> Vec<&str> {
        self.names.iter().map(String::as_str).filter(|name| self.count(name) == 0).collect()
    }

    /// A line for each situation with its count, the total, and the missing ones.
    pub fn report(&self) -> String {
        let missing = self.missing();
        let mut lines: Vec<String> =
            self.names.iter().map(|name| format!("{:7} {name}", self.count(name))).collect();
        lines.push(format!("{} of {} reached", self.names.len() - missing.len(), self.names.len()));
        lines.extend(missing.iter().map(|name| format!("missing: {name}")));
        lines.join("\n") + "\n"
    }
}

impl Default for Tally {
    fn default() -> Tally {
        Tally::new()
    }
}

#[cfg(test)]
mod tests {
    use super::Tally;

    #[test]
    fn names_are_distinct() {
        let mut names = Tally::new().names;
        names.sort();
        let all = names.len();
        names.dedup();
        assert_eq!(names.len(), all);
    }

    #[test]
    fn the_report_ends_with_what_is_missing() {
        let mut tally = Tally::new();
        let all = tally.names.len();
        tally.hit("open 0");
        tally.hit("open 0");
        let report = tally.report();
        assert!(report.starts_with("      2 open 0\n      0 open 1\n"));
        assert!(report.contains(&format!("\n1 of {all} reached\nmissing: open 1\n")));
    }
}
