//! Comparing a program's output with the model's, script by script.

use std::io::{self, Read, Write};
use std::process::{Command, Stdio};
use std::thread;

use crate::fault::Fault;
use crate::script::Scripts;
use crate::session::output_of;

/// A program that reads a script and prints its output.
#[derive(Clone, Debug)]
pub struct Program {
    pub path: String,
    pub args: Vec<String>,
}

impl Program {
    /// The program's whole output for a script.
    fn output_of(&self, script: &[u8]) -> io::Result<Vec<u8>> {
        let mut child = Command::new(&self.path)
            .args(&self.args)
            .stdin(Stdio::piped())
            .stdout(Stdio::piped())
            .spawn()?;
        let mut input = child.stdin.take().expect("standard input is piped");
        let mut printed = child.stdout.take().expect("standard output is piped");
        let mut output = Vec::new();
        thread::scope(|scope| {
            // A program may end before it has read everything.
            scope.spawn(move || input.write_all(script).ok());
            printed.read_to_end(&mut output)
        })?;
        child.wait()?;
        Ok(output)
    }
}

/// A run of scripts.
#[derive(Clone, Debug)]
pub struct Comparison {
    pub program: Program,
    pub scripts: Scripts,
    pub count: u64,
}

impl Comparison {
    /// Compares every script; gives the number of differences.
    pub fn compare(&self, out: &mut impl Write, fault: Option<Fault>) -> io::Result<u64> {
        let mut differences = 0;
        for number in 0..self.count {
            let script = self.scripts.script(number);
            let program = self.program.output_of(&script)?;
            let model = output_of(&script, fault);
            if let Some(difference) = first_difference(&script, &program, &model) {
                writeln!(out, "script {number}, {difference}")?;
                differences += 1;
            }
        }
        self.summary(out, differences)?;
        Ok(differences)
    }

    /// Compares without a fault, then with each that scripts show: true if only faults differ.
    pub fn try_faults(&self, out: &mut impl Write) -> io::Result<bool> {
        let faults: Vec<Fault> = Fault::in_scripts().collect();
        let mut sightings = vec![None; faults.len()];
        let mut differences = 0;
        for number in 0..self.count {
            let script = self.scripts.script(number);
            let program = self.program.output_of(&script)?;
            let difference =
                |fault| first_difference(&script, &program, &output_of(&script, fault));
            if let Some(difference) = difference(None) {
                writeln!(out, "script {number}, {difference}")?;
                differences += 1;
            }
            for (&fault, sighting) in faults.iter().zip(&mut sightings) {
                if sighting.is_none() {
                    *sighting = difference(Some(fault)).map(|difference| (number, difference));
                }
            }
        }
        self.summary(out, differences)?;
        for (fault, sighting) in faults.iter().zip(&sightings) {
            match sighting {
                Some((number, difference)) => {
                    writeln!(out, "fault {}: seen in script {number}", fault.name())?;
                    writeln!(out, "  {difference}")?;
                }
                None => writeln!(out, "fault {}: not seen", fault.name())?,
            }
        }
        let seen = sightings.iter().flatten().count();
        writeln!(out, "{seen} faults of {} seen", sightings.len())?;
        Ok(differences == 0 && seen == sightings.len())
    }

    fn summary(&self, out: &mut impl Write, differences: u64) -> io::Result<()> {
        writeln!(
            out,
            "compared {} scripts of {} requests, seed {}, {differences} differences",
            self.count, self.scripts.requests, self.scripts.seed,
        )
    }
}

/// Describes the first line in which two outputs differ.
fn first_difference(script: &[u8], program: &[u8], model: &[u8]) -> Option<String> {
    if program == model {
        return None;
    }
    let lines = |text| <[u8]>::split(text, |&byte| byte == b'\n');
    let common = lines(program)
        .zip(lines(model))
        .take_while(|(left, right)| left == right)
        .count();
    let quoted = |text| match lines(text).nth(common) {
        Some(line) => format!("{:?}", String::from_utf8_lossy(line)),
        None => String::from("nothing"),
    };
    Some(format!(
        "line {}: for {} the program has {}, the model {}",
        common + 1,
        quoted(script),
        quoted(program),
        quoted(model),
    ))
}
