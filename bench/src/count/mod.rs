//! Instructions, counted by callgrind.

pub mod callgrind;
pub mod work;

use std::io::{self, Write};

use crate::engines::Side;
use crate::memory::Memory;
use crate::stages::CPUS;
use crate::table::{BESIDE_RUST, BESIDE_WORDS, Column, Columns, number, ratio};
use crate::verdict::Verdict;
use callgrind::{Counts, Pair, Stage};
use work::SIZES;

/// The most that the counts of a stage may differ between the sizes, per cent.
const APART: f64 = 3.0;
/// The most instructions of a get and put by plain Rust's.
const RUN: f64 = 1.1;

const STAGES: [Column; 11] = [
    ("stage", 20),
    ("first 64", 10),
    ("65536", 8),
    ("apart", 7),
    ("last 64", 9),
    ("65536", 8),
    ("apart", 7),
    ("rust", 8),
    ("ratio", 7),
    ("words", 8),
    ("ratio", 7),
];

/// The columns that name a get and put.
const PAIR: [Column; 3] = [("order", 7), ("n", 7), ("steps", 7)];

/// Counts; nothing where callgrind is not installed.
pub fn counted() -> io::Result<Option<Counts>> {
    if !callgrind::installed() {
        return Ok(None);
    }
    eprintln!("instructions, under callgrind");
    callgrind::counted().map(Some)
}

/// Prints the tables.
pub fn print(out: &mut impl Write, counts: Option<&Counts>) -> io::Result<()> {
    let Some(counts) = counts else {
        return writeln!(out, "valgrind is not installed");
    };
    stage_table(out, &counts.stages)?;
    pair_tables(out, &counts.pairs)
}

fn stage_table(out: &mut impl Write, stages: &[Stage]) -> io::Result<()> {
    let n = SIZES[1];
    writeln!(
        out,
        "# Instructions of a single step of the library, in the first and in the last tree, at n = {} and {n}, and how far apart these are.",
        SIZES[0]
    )?;
    writeln!(
        out,
        "# rust and words: plain Rust in the first tree at n = {n}; ratio is library / plain Rust there."
    )?;
    let columns = Columns::of(&[&STAGES]);
    columns.head(out)?;
    for stage in stages {
        let [first, last] = stage.steps;
        let count = |count| number(Some(count));
        let by = |above, below| ratio(Some(above), Some(below));
        let one = first[1];
        columns.row(
            out,
            &[
                String::from(stage.name),
                count(first[0].library),
                count(one.library),
                format!("{:.1}%", apart(stage, 0)),
                count(last[0].library),
                count(last[1].library),
                format!("{:.1}%", apart(stage, 1)),
                count(one.plain),
                by(one.library, one.plain),
                count(one.words),
                by(one.library, one.words),
            ],
        )?;
    }
    writeln!(out, "{} stages compared", compared(stages).count())
}

/// How far a stage's counts are apart at the two sizes, per cent of the smaller one's.
fn apart(stage: &Stage, tree: usize) -> f64 {
    let [small, large] = stage.steps[tree];
    (large.library / small.library - 1.0).abs() * 100.0
}

/// Every stage in the first and in the last tree: how far apart, and its name.
fn compared(stages: &[Stage]) -> impl Iterator<Item = (f64, String)> {
    let trees = ["first", "last"].into_iter().enumerate();
    trees.flat_map(move |(tree, name)| {
        let named = move |stage: &Stage| {
            let row = format!("{}, {name} tree", stage.name);
            (apart(stage, tree), row)
        };
        stages.iter().map(named)
    })
}

fn pair_tables(out: &mut impl Write, pairs: &[Pair]) -> io::Result<()> {
    writeln!(
        out,
        "# Instructions of a get and a put of one block, and their steps; ratio is library / the column before. run: one call each; two: two calls each."
    )?;
    let columns = Columns::of(&[&PAIR, &BESIDE_RUST]);
    columns.head(out)?;
    for pair in pairs {
        columns.row(out, &keyed(pair, pair.sides.beside_rust()))?;
    }
    writeln!(
        out,
        "# The same, plain Rust's record two words at each call."
    )?;
    let columns = Columns::of(&[&PAIR, &BESIDE_WORDS]);
    columns.head(out)?;
    for pair in pairs {
        columns.row(out, &keyed(pair, pair.sides.beside_words()))?;
    }
    Ok(())
}

fn keyed(pair: &Pair, fields: Vec<String>) -> Vec<String> {
    let Pair { order, n, .. } = *pair;
    let key = [order, n, steps(order, n)];
    let mut row: Vec<String> = key.map(|number| number.to_string()).into();
    row.extend(fields);
    row
}

/// The steps of a get and a put of one block, once the CPU has its tree.
fn steps(order: u64, n: u64) -> u64 {
    let mut memory = Memory::created(n, CPUS);
    let mut zone = memory.library();
    let mut steps = 0;
    for _ in 0..2 {
        let record = &mut [0; 2];
        let got = zone.get_run(record, 0, order, u64::MAX);
        let given = zone.put_run(record, 0, got.frame, order, u64::MAX);
        steps = got.steps + given.steps;
    }
    steps
}

/// What the counts show; `strict` makes the bound on a get and put binding.
pub fn verdicts(counts: Option<&Counts>, strict: bool) -> Vec<Verdict> {
    let Some(counts) = counts else {
        return Vec::new();
    };
    let by = |above, below| {
        counts.pairs.iter().filter_map(move |pair| {
            let ratio = pair.sides.ratio(above, below)?;
            Some((ratio, format!("order {}, n {}", pair.order, pair.n)))
        })
    };
    vec![
        Verdict::worst(
            "a stage's instructions at n = 64 and 65536, per cent apart",
            APART,
            compared(&counts.stages),
        )
        .binding(true),
        Verdict::worst(
            "a get and put run to their end, instructions by plain Rust's",
            RUN,
            by(Side::LibraryRun, Side::PlainRun),
        )
        .binding(strict),
        Verdict::worst(
            "the same, by plain Rust's over words",
            RUN,
            by(Side::LibraryRun, Side::WordsRun),
        ),
        Verdict::worst(
            "a get and put begun by one call and run by another, instructions by plain Rust's",
            RUN,
            by(Side::LibraryTwo, Side::PlainTwo),
        ),
    ]
}
