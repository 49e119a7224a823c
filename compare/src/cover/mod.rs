//! Which cases the calls have reached.

mod answers;
mod names;
mod order;
mod runs;
mod steps;

use std::collections::HashMap;
use std::io::{self, Write};

use crate::call::{Call, Outcome};
use crate::pair::Pair;
use crate::record::Record;

/// The least count of every case.
pub const LEAST: u64 = 100;

/// A call that both sides answered alike. The pair is as the call left it.
#[derive(Debug)]
pub struct Seen<'a> {
    pub call: Call,
    /// The record slice before the call.
    pub words: &'a [u64],
    /// The record before the call, if the slice held one.
    pub record: Option<Record>,
    /// The stage of the record before that.
    pub came_from: u8,
    /// The entry of the record's tree before the call, if there is one.
    pub tree: Option<u16>,
    /// The header before the call.
    pub header: Option<u64>,
    pub outcome: Outcome,
    /// The record after the call.
    pub next: Option<Record>,
    pub pair: &'a Pair,
}

/// A count for every named case.
#[derive(Clone, Debug)]
pub struct Cover {
    cases: Vec<(String, u64)>,
    places: HashMap<String, usize>,
}

impl Default for Cover {
    fn default() -> Self {
        Cover::new()
    }
}

impl Cover {
    pub fn new() -> Self {
        let cases: Vec<(String, u64)> = names::all().into_iter().map(|name| (name, 0)).collect();
        let places = cases
            .iter()
            .enumerate()
            .map(|(place, (name, _))| (name.clone(), place))
            .collect();
        Cover { cases, places }
    }

    /// Counts a case; one that is not in the table is added, and makes `complete` fail.
    pub fn note(&mut self, name: &str) {
        match self.places.get(name) {
            Some(&place) => self.cases[place].1 += 1,
            None => {
                self.places.insert(name.to_string(), self.cases.len());
                self.cases.push((format!("{name} (not in the table)"), 1));
            }
        }
    }

    /// Counts the cases of a call.
    pub fn see(&mut self, seen: &Seen) {
        let cases = [
            answers::cases(seen),
            order::cases(seen),
            runs::cases(seen),
            steps::cases(seen),
        ];
        for name in cases.iter().flatten() {
            self.note(name);
        }
    }

    pub fn len(&self) -> usize {
        self.cases.len()
    }

    pub fn is_empty(&self) -> bool {
        self.cases.is_empty()
    }

    /// The names of the cases that were not reached often enough or are not in the table.
    pub fn missing(&self) -> Vec<&str> {
        let known = names::all().len();
        let rare =
            |&(place, (_, count)): &(usize, &(String, u64))| place >= known || *count < LEAST;
        self.cases
            .iter()
            .enumerate()
            .filter(rare)
            .map(|(_, (name, _))| &name[..])
            .collect()
    }

    /// Prints each case with its count.
    pub fn print(&self, out: &mut impl Write) -> io::Result<()> {
        for (name, count) in &self.cases {
            writeln!(out, "{count:>9}  {name}")?;
        }
        Ok(())
    }
}
