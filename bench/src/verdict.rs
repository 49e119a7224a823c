//! Judgement lines: a figure, its bound, and whether it holds.

use std::fmt;
use std::io::{self, Write};

/// A figure and its bound.
#[derive(Clone, Debug)]
pub struct Verdict {
    what: &'static str,
    found: f64,
    bound: f64,
    row: String,
    /// Whether the exit status tells of it.
    binding: bool,
}

impl Verdict {
    /// The worst of some rows. Where there is none, nothing was measured, and the figure does not hold.
    pub fn worst(
        what: &'static str,
        bound: f64,
        rows: impl IntoIterator<Item = (f64, String)>,
    ) -> Self {
        let worst = rows
            .into_iter()
            .max_by(|(one, _), (other, _)| one.total_cmp(other));
        let (found, row) = worst.unwrap_or((f64::NAN, String::from("nothing measured")));
        Verdict {
            what,
            found,
            bound,
            row,
            binding: false,
        }
    }

    /// The same, for the exit status to tell of.
    pub fn binding(self, binding: bool) -> Self {
        Verdict { binding, ..self }
    }

    pub fn holds(&self) -> bool {
        self.found <= self.bound
    }
}

impl fmt::Display for Verdict {
    fn fmt(&self, f: &mut fmt::Formatter<'_>) -> fmt::Result {
        let Verdict {
            what,
            found,
            bound,
            row,
            ..
        } = self;
        let holds = if self.holds() {
            "holds"
        } else {
            "does not hold"
        };
        write!(f, "{holds}: {what}: {found:.2}, bound {bound} ({row})")
    }
}

/// Prints the lines; false if one that binds does not hold.
pub fn print(out: &mut impl Write, verdicts: &[Verdict]) -> io::Result<bool> {
    for verdict in verdicts {
        writeln!(out, "{verdict}")?;
    }
    let mut binding = verdicts.iter().filter(|verdict| verdict.binding);
    Ok(binding.all(Verdict::holds))
}
