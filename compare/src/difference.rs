//! Where the two sides differ after a call.

use std::fmt;

use reference::layout::{Child, CpuEntry, Header, Tree};
use reference::zone::Zone;

use crate::call::{Call, Outcome};
use crate::library::Packed;

/// What differs.
#[derive(Clone, Copy, Debug, PartialEq, Eq)]
pub enum What {
    Answer,
    Frame,
    Steps,
    /// A word of the record slice.
    Record(usize),
    Header(usize),
    Word(usize),
    Child(usize),
    Tree(usize),
    Cpu(usize),
}

impl fmt::Display for What {
    fn fmt(&self, out: &mut fmt::Formatter) -> fmt::Result {
        match self {
            What::Answer => write!(out, "answer"),
            What::Frame => write!(out, "frame"),
            What::Steps => write!(out, "steps"),
            What::Record(index) => write!(out, "record word {index}"),
            What::Header(index) => write!(out, "header {index}"),
            What::Word(index) => write!(out, "words {index}"),
            What::Child(index) => write!(out, "children {index}"),
            What::Tree(index) => write!(out, "trees {index}"),
            What::Cpu(index) => write!(out, "cpus {index}"),
        }
    }
}

/// What differs, with the library's value and the reference's.
#[derive(Clone, Copy, Debug, PartialEq, Eq)]
pub struct Unequal {
    pub what: What,
    pub library: u64,
    pub reference: u64,
}

/// The first difference of a run of calls.
#[derive(Clone, Debug, PartialEq, Eq)]
pub struct Difference {
    /// The call's number, counted from 1.
    pub number: u64,
    pub call: Call,
    /// Huge frames by the children's table, and CPUs.
    pub n: usize,
    pub cpus: usize,
    /// The record slice before the call.
    pub record: Vec<u64>,
    pub library: Outcome,
    pub reference: Outcome,
    pub unequal: Unequal,
}

impl fmt::Display for Difference {
    fn fmt(&self, out: &mut fmt::Formatter) -> fmt::Result {
        let Unequal {
            what,
            library,
            reference,
        } = self.unequal;
        writeln!(
            out,
            "{} on {} huge frames and {} CPUs, record{}",
            self.call,
            self.n,
            self.cpus,
            hexadecimal(&self.record)
        )?;
        writeln!(
            out,
            "  {what}: library {library} ({library:#x}), reference {reference} ({reference:#x})"
        )?;
        write!(
            out,
            "  library answers {}, reference answers {}",
            self.library.number, self.reference.number
        )
    }
}

fn hexadecimal(words: &[u64]) -> String {
    words.iter().map(|word| format!(" {word:#018x}")).collect()
}

/// The first number of two answers that differs.
pub fn answers(library: &Outcome, reference: &Outcome) -> Option<Unequal> {
    let steps = |outcome: &Outcome| outcome.steps.unwrap_or(0);
    [
        (What::Answer, library.number, reference.number),
        (What::Frame, library.frame, reference.frame),
        (What::Steps, steps(library), steps(reference)),
    ]
    .into_iter()
    .find(|(_, left, right)| left != right)
    .map(|(what, library, reference)| Unequal {
        what,
        library,
        reference,
    })
}

/// Entries that are compared without a look at each.
const CHUNK: usize = 256;

/// The first entry of two tables that differs; lengths are equal.
fn first<P, E>(
    library: &[P],
    reference: &[E],
    what: impl Fn(usize) -> What,
    join: impl Fn(E) -> P,
) -> Option<Unequal>
where
    P: Copy + PartialEq + Into<u64>,
    E: Copy,
{
    let differs = |(&left, &right): (&P, &E)| left != join(right);
    let chunks = library.chunks(CHUNK).zip(reference.chunks(CHUNK));
    let chunk = chunks
        .map(|(left, right)| {
            left.iter()
                .zip(right)
                .fold(false, |any, entries| any | differs(entries))
        })
        .position(|any| any)?;
    let from = chunk * CHUNK;
    let entries = library[from..].iter().zip(&reference[from..]);
    let index = from + entries.map(differs).position(|any| any)?;
    Some(Unequal {
        what: what(index),
        library: library[index].into(),
        reference: join(reference[index]).into(),
    })
}

/// The first word of two record slices that differs.
pub fn records(library: &[u64], reference: &[u64]) -> Option<Unequal> {
    first(library, reference, What::Record, |word| word)
}

/// The first entry of the five tables that differs.
pub fn tables(library: &Packed, reference: &Zone) -> Option<Unequal> {
    first(
        &library.header,
        &reference.header,
        What::Header,
        Header::join,
    )
    .or_else(|| first(&library.words, &reference.words, What::Word, |word| word.0))
    .or_else(|| {
        first(
            &library.children,
            &reference.children,
            What::Child,
            Child::join,
        )
    })
    .or_else(|| first(&library.trees, &reference.trees, What::Tree, Tree::join))
    .or_else(|| first(&library.cpus, &reference.cpus, What::Cpu, CpuEntry::join))
}
