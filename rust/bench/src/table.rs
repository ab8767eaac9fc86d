//! The table of ratios: each row is printed as it is measured, and kept for the plot and the page.

use crate::clock::Pair;

/// The group of the rows that are told and counted like others, and left out of the picture.
pub const NOT_DRAWN: &str = "";

pub struct Row {
    pub group: &'static str,
    pub name: String,
    pub beside: &'static str,
    pub bound: f64,
    pub pair: Pair,
}

impl Row {
    pub fn is_above(&self) -> bool {
        self.pair.ratio() > self.bound
    }
}

/// The rows so far, and all that was said.
#[derive(Default)]
pub struct Table {
    pub rows: Vec<Row>,
    pub said: String,
}

impl Table {
    /// Says a line.
    pub fn say(&mut self, line: &str) {
        let line = line.trim_end();
        println!("{line}");
        self.said.push_str(line);
        self.said.push('\n');
    }

    pub fn head(&mut self) {
        let (call, beside, ratio, bound) = ("call", "beside", "ratio", "bound");
        self.say(&format!("{call:<36} {beside:<8} {:>10} {:>10} {ratio:>6} {bound:>6}", "proved ns", "beside ns"));
    }

    pub fn row(&mut self, group: &'static str, name: &str, beside: &'static str, bound: f64, pair: Pair) {
        let row = Row { group, name: name.to_string(), beside, bound, pair };
        let above = if row.is_above() { "above" } else { "" };
        let Pair { proved, beside: other } = pair;
        let ratio = pair.ratio();
        self.say(&format!("{name:<36} {beside:<8} {proved:>10.1} {other:>10.1} {ratio:>6.2} {bound:>6.2} {above}"));
        self.rows.push(row);
    }

    /// The last line: the row nearest to its bound, or farthest above, and the highest ratio.
    pub fn worst(&self) -> String {
        let to_bound = |row: &&Row| (1000.0 * row.pair.ratio() / row.bound) as u64;
        let absolute = |row: &&Row| (1000.0 * row.pair.ratio()) as u64;
        let (Some(nearest), Some(highest)) =
            (self.rows.iter().max_by_key(to_bound), self.rows.iter().max_by_key(absolute))
        else {
            return "no row".to_string();
        };
        format!(
            "worst ratio to its bound: {:.2} ({}, {:.2} of {:.2}); worst ratio: {:.2} ({}); rows above: {}",
            nearest.pair.ratio() / nearest.bound,
            nearest.name,
            nearest.pair.ratio(),
            nearest.bound,
            highest.pair.ratio(),
            highest.name,
            self.rows.iter().filter(|row| row.is_above()).count()
        )
    }
}

#[cfg(test)]
mod tests {
    use super::Table;
    use crate::clock::Pair;

    #[test]
    fn the_worst_row_and_those_above_their_bound_are_told() {
        let mut table = Table::default();
        table.row("g", "near", "Rust", 1.05, Pair { proved: 104.0, beside: 100.0 });
        table.row("g", "high", "memcpy", 4.0, Pair { proved: 300.0, beside: 100.0 });
        assert!(!table.said.contains("above"));
        let worst = "worst ratio to its bound: 0.99 (near, 1.04 of 1.05); worst ratio: 3.00 (high); rows above: 0";
        assert_eq!(table.worst(), worst);
        table.row("g", "over", "Rust", 2.0, Pair { proved: 201.0, beside: 100.0 });
        assert!(table.said.ends_with("2.00 above\n"));
        assert!(table.worst().ends_with("rows above: 1"));
    }
}
