//! The ratios as a picture: a bar for each row, with the bound marked on it. Plain SVG in middle tones, legible on light and
//! dark ground.

use std::fmt::Write;

use crate::table::{Row, Table, NOT_DRAWN};

const WIDTH: f64 = 900.0;
const LEFT: f64 = 330.0;
const UNIT: f64 = 180.0;
const LARGEST: f64 = 2.4;
const STEP: f64 = 18.0;
const TOP: f64 = 64.0;
const INK: &str = "#76808c";
const FAINT: &str = "#9aa4b055";
const BELOW: &str = "#3f8fc7";
const ABOVE: &str = "#d1603d";

fn x(ratio: f64) -> f64 {
    LEFT + UNIT * ratio.min(LARGEST)
}

/// Text that ends or begins at a point.
fn text(out: &mut String, at: (f64, f64), anchor: &str, weight: &str, content: &str) {
    let (x, y) = at;
    let _ =
        writeln!(out, r#"<text x="{x:.1}" y="{y:.1}" text-anchor="{anchor}" font-weight="{weight}">{content}</text>"#);
}

fn line(out: &mut String, (x, from, to): (f64, f64, f64), colour: &str, width: f64) {
    let _ = writeln!(
        out,
        r#"<line x1="{x:.1}" y1="{from:.1}" x2="{x:.1}" y2="{to:.1}" stroke="{colour}" stroke-width="{width}"/>"#
    );
}

fn bar(out: &mut String, y: f64, row: &Row) {
    let ratio = row.pair.ratio();
    let colour = if row.is_above() { ABOVE } else { BELOW };
    let length = x(ratio) - LEFT;
    let name = match row.beside {
        "Rust" => row.name.clone(),
        beside => format!("{} (beside {beside})", row.name),
    };
    text(out, (LEFT - 8.0, y), "end", "normal", &name);
    let _ = writeln!(
        out,
        r#"<rect x="{LEFT}" y="{:.1}" width="{length:.1}" height="12" rx="2" fill="{colour}"/>"#,
        y - 10.0
    );
    if row.bound <= LARGEST {
        line(out, (x(row.bound), y - 12.0, y + 4.0), INK, 2.5);
    }
    let above = if row.is_above() { " above" } else { "" };
    text(out, (x(LARGEST) + 10.0, y), "start", "normal", &format!("{ratio:.2} of {:.2}{above}", row.bound));
}

/// The height that the groups and rows take.
fn bottom(rows: &[&Row]) -> f64 {
    let mut groups: Vec<&str> = rows.iter().map(|row| row.group).collect();
    groups.dedup();
    TOP + STEP * (rows.len() as f64 + 1.5 * groups.len() as f64) + 8.0
}

fn axis(out: &mut String, bottom: f64) {
    for tenth in [0, 5, 10, 15, 20] {
        let ratio = f64::from(tenth) / 10.0;
        let weight = if tenth == 10 { 1.5 } else { 0.75 };
        let colour = if tenth == 10 { INK } else { FAINT };
        line(out, (x(ratio), TOP - 8.0, bottom), colour, weight);
        text(out, (x(ratio), TOP - 14.0), "middle", "normal", &format!("{ratio:.1}"));
    }
}

pub fn svg(table: &Table) -> String {
    let mut out = String::new();
    let rows: Vec<&Row> = table.rows.iter().filter(|row| row.group != NOT_DRAWN).collect();
    let bottom = bottom(&rows);
    let _ = writeln!(
        out,
        r#"<svg xmlns="http://www.w3.org/2000/svg" viewBox="0 0 {WIDTH} {:.0}" font-family="sans-serif" font-size="12" fill="{INK}">"#,
        bottom + 30.0
    );
    text(
        &mut out,
        (LEFT, 22.0),
        "start",
        "bold",
        "Time of the proved code over that of the plain version; the mark is the bound",
    );
    axis(&mut out, bottom);
    let mut y = TOP;
    let mut group = "";
    for row in rows {
        if row.group != group {
            group = row.group;
            y += 1.5 * STEP;
            text(&mut out, (LEFT - 8.0, y - STEP), "end", "bold", group);
        }
        bar(&mut out, y, row);
        y += STEP;
    }
    text(&mut out, (WIDTH / 2.0, bottom + 20.0), "middle", "normal", &table.worst());
    out.push_str("</svg>\n");
    out
}
