//! Tables in text.

use std::io::{self, Write};

use crate::engines::Side;

/// A column: its heading and its width.
pub type Column = (&'static str, usize);

/// The columns of a table. The first one stands to the left.
pub struct Columns(Vec<Column>);

impl Columns {
    /// These columns, one group behind the other.
    pub fn of(groups: &[&[Column]]) -> Self {
        Columns(groups.concat())
    }

    /// Prints the headings.
    pub fn head(&self, out: &mut impl Write) -> io::Result<()> {
        let names: Vec<String> = self.0.iter().map(|(name, _)| String::from(*name)).collect();
        self.row(out, &names)
    }

    /// Prints a row.
    pub fn row(&self, out: &mut impl Write, fields: &[String]) -> io::Result<()> {
        for (at, (field, &(_, width))) in fields.iter().zip(&self.0).enumerate() {
            match at {
                0 => write!(out, "{field:<width$}")?,
                _ => write!(out, "{field:>width$}")?,
            }
        }
        writeln!(out)
    }
}

/// A number with one digit after the point, or `-`.
pub fn number(number: Option<f64>) -> String {
    number.map_or(String::from("-"), |number| format!("{number:.1}"))
}

/// A ratio with two digits after the point, or `-`.
pub fn ratio(above: Option<f64>, below: Option<f64>) -> String {
    let ratio = quotient(above, below);
    ratio.map_or(String::from("-"), |ratio| format!("{ratio:.2}"))
}

/// A ratio, where both numbers are there.
pub fn quotient(above: Option<f64>, below: Option<f64>) -> Option<f64> {
    match (above, below) {
        (Some(above), Some(below)) if below > 0.0 => Some(above / below),
        _ => None,
    }
}

/// The columns of the library beside plain Rust and the independent program.
pub const BESIDE_RUST: [Column; 11] = [
    ("lib-run", 10),
    ("rust-run", 10),
    ("ratio", 7),
    ("lib-two", 10),
    ("rust-two", 10),
    ("ratio", 7),
    ("lib-step", 10),
    ("rust-step", 10),
    ("ratio", 7),
    ("reference", 10),
    ("ratio", 7),
];

/// The columns of the library beside plain Rust over the same two words.
pub const BESIDE_WORDS: [Column; 9] = [
    ("lib-run", 10),
    ("words-run", 10),
    ("ratio", 7),
    ("lib-two", 10),
    ("words-two", 10),
    ("ratio", 7),
    ("lib-step", 10),
    ("words-step", 11),
    ("ratio", 7),
];

/// One number for each engine, where it was measured.
#[derive(Clone, Debug)]
pub struct Sides(pub Vec<Option<f64>>);

impl Sides {
    pub fn of(&self, side: Side) -> Option<f64> {
        self.0.get(side as usize).copied().flatten()
    }

    /// The ratio of two engines.
    pub fn ratio(&self, above: Side, below: Side) -> Option<f64> {
        quotient(self.of(above), self.of(below))
    }

    /// The fields of [`BESIDE_RUST`].
    pub fn beside_rust(&self) -> Vec<String> {
        let (run, plain_run) = (self.of(Side::LibraryRun), self.of(Side::PlainRun));
        let (two, plain_two) = (self.of(Side::LibraryTwo), self.of(Side::PlainTwo));
        let (step, plain_step) = (self.of(Side::LibraryStep), self.of(Side::PlainStep));
        let reference = self.of(Side::Reference);
        vec![
            number(run),
            number(plain_run),
            ratio(run, plain_run),
            number(two),
            number(plain_two),
            ratio(two, plain_two),
            number(step),
            number(plain_step),
            ratio(step, plain_step),
            number(reference),
            ratio(run, reference),
        ]
    }

    /// The fields of [`BESIDE_WORDS`].
    pub fn beside_words(&self) -> Vec<String> {
        let (run, words_run) = (self.of(Side::LibraryRun), self.of(Side::WordsRun));
        let (two, words_two) = (self.of(Side::LibraryTwo), self.of(Side::WordsTwo));
        let (step, words_step) = (self.of(Side::LibraryStep), self.of(Side::WordsStep));
        vec![
            number(run),
            number(words_run),
            ratio(run, words_run),
            number(two),
            number(words_two),
            ratio(two, words_two),
            number(step),
            number(words_step),
            ratio(step, words_step),
        ]
    }
}
