//! A bar chart of `bench run`, as SVG text.

use std::fmt::Write;
use std::fs;
use std::io;

/// The columns that have a bar, and their colours.
const BARS: [(&str, &str); 9] = [
    ("lib-run", "#1f5fa8"),
    ("rust-run", "#8fb4dc"),
    ("words-run", "#bdd3ea"),
    ("lib-step", "#a85a1f"),
    ("rust-step", "#dcb48f"),
    ("words-step", "#eed9c4"),
    ("reference", "#777777"),
    ("malloc", "#3f8f3f"),
    ("mimalloc", "#8fc78f"),
];
const WIDTH: f64 = 900.0;
const LEFT: f64 = 190.0;
const RIGHT: f64 = 70.0;
const TOP: f64 = 60.0;
const BAR: f64 = 10.0;
const GAP: f64 = 8.0;
/// Longer bars are cut off; their number is printed all the same.
const MOST: f64 = 400.0;

/// A row of the tables: its name, and its number for each bar.
struct Row {
    name: String,
    numbers: [Option<f64>; BARS.len()],
}

/// Draws the chart of what `run` has printed; false if there is no row.
pub fn draw(file: &str, printed: &str) -> io::Result<bool> {
    let rows = rows(printed);
    if rows.is_empty() {
        eprintln!("bench: the result has no row");
        return Ok(false);
    }
    fs::write(file, svg(&rows))?;
    Ok(true)
}

/// The rows of all tables that begin with the same four columns; those of one name are one.
fn rows(printed: &str) -> Vec<Row> {
    let mut rows: Vec<Row> = Vec::new();
    let mut heading: Vec<&str> = Vec::new();
    for line in printed.lines() {
        let fields: Vec<&str> = line.split_whitespace().collect();
        if fields.first() == Some(&"benchmark") {
            heading = fields;
            continue;
        }
        let Some(name) = name(&fields).filter(|_| fields.len() == heading.len()) else {
            continue;
        };
        let at = rows.iter().position(|row| row.name == name);
        let at = at.unwrap_or_else(|| {
            let numbers = [None; BARS.len()];
            rows.push(Row { name, numbers });
            rows.len() - 1
        });
        for (number, (bar, _)) in rows[at].numbers.iter_mut().zip(BARS) {
            let column = heading.iter().position(|&column| column == bar);
            let found = column.and_then(|column| fields[column].parse().ok());
            *number = number.or(found);
        }
    }
    rows
}

/// The name of a row; none for a note.
fn name(fields: &[&str]) -> Option<String> {
    let &[benchmark, order, n, cpus, ..] = fields else {
        return None;
    };
    let mut numbers = [order, n, cpus].into_iter();
    let numbered = numbers.all(|field| field.parse::<u64>().is_ok());
    numbered.then(|| format!("{benchmark}, order {order}, n {n}, {cpus} CPU"))
}

fn svg(rows: &[Row]) -> String {
    let total = TOP + rows.iter().map(height).sum::<f64>() + GAP;
    let mut text = format!(
        "<svg xmlns=\"http://www.w3.org/2000/svg\" width=\"{WIDTH}\" height=\"{total}\" font-family=\"sans-serif\" font-size=\"10\">\n"
    );
    push(
        &mut text,
        "<rect width=\"100%\" height=\"100%\" fill=\"white\"/>",
    );
    legend(&mut text);
    let mut y = TOP;
    for row in rows {
        bars(&mut text, row, y);
        y += height(row);
    }
    text.push_str("</svg>\n");
    text
}

fn push(text: &mut String, line: &str) {
    text.push_str(line);
    text.push('\n');
}

fn height(row: &Row) -> f64 {
    row.numbers.iter().flatten().count() as f64 * BAR + GAP
}

fn legend(text: &mut String) {
    push(
        text,
        "<text x=\"10\" y=\"18\" font-size=\"13\">Nanoseconds an operation</text>",
    );
    for (at, (name, colour)) in BARS.iter().enumerate() {
        let x = 10.0 + 95.0 * at as f64;
        let _ = writeln!(
            text,
            "<rect x=\"{x}\" y=\"30\" width=\"10\" height=\"10\" fill=\"{colour}\"/><text x=\"{}\" y=\"39\">{name}</text>",
            x + 15.0
        );
    }
}

fn bars(text: &mut String, row: &Row, top: f64) {
    let _ = writeln!(
        text,
        "<text x=\"10\" y=\"{}\">{}</text>",
        top + BAR,
        row.name
    );
    let numbers = row.numbers.iter().zip(BARS);
    let measured = numbers.filter_map(|(number, (_, colour))| Some(((*number)?, colour)));
    for (at, (number, colour)) in measured.enumerate() {
        let y = top + at as f64 * BAR;
        let width = number.min(MOST) / MOST * (WIDTH - LEFT - RIGHT);
        let _ = writeln!(
            text,
            "<rect x=\"{LEFT}\" y=\"{y}\" width=\"{width:.1}\" height=\"{}\" fill=\"{}\"/><text x=\"{:.1}\" y=\"{}\">{number}</text>",
            BAR - 1.0,
            colour,
            LEFT + width + 4.0,
            y + BAR - 2.0
        );
    }
}
