//! The bytes that the tables take.

use std::io::{self, Write};

use lovarntek::calls;

use crate::memory::Memory;
use crate::table::{Column, Columns};
use crate::verdict::Verdict;

/// Bytes of a huge frame's words and child, of a tree, of a CPU and of the header.
const HUGE: u64 = 66;
const TREE: u64 = 2;
const CPU: u64 = 8;
const HEADER: u64 = 8;
/// Huge frames of a GiB.
const GIB: f64 = 512.0;
const MOST: u64 = 65_536;
const SIZES: [u64; 3] = [64, 4_096, MOST];
const CPUS: [u64; 3] = [1, 8, 64];

const COLUMNS: [Column; 7] = [
    ("n", 8),
    ("CPUs", 6),
    ("GiB", 10),
    ("formula", 10),
    ("lengths", 10),
    ("lent", 10),
    ("a GiB", 9),
];

/// By the formula.
fn formula(n: u64, cpus: u64) -> u64 {
    HUGE * n + TREE * n.div_ceil(32) + CPU * cpus + HEADER
}

/// By the length functions.
fn lengths(n: u64, cpus: u64) -> u64 {
    8 * calls::words(n) + 2 * calls::children(n) + 2 * calls::trees(n) + CPU * cpus + HEADER
}

/// A zone that was created: the bytes of the slices lent to it, by which the library creates, opens and closes it.
fn lent(n: u64, cpus: u64) -> u64 {
    let mut memory = Memory::created(n, cpus as usize);
    let bytes = memory.bytes();
    let zone = &mut memory.library();
    let settled = zone.settled().number;
    if settled == 0 { bytes } else { 0 }
}

/// What was checked: how many sizes, and which of them differ.
pub struct Checked {
    rows: Vec<Row>,
    tried: u64,
    differing: Vec<u64>,
}

/// The bytes of a zone, three ways.
struct Row {
    n: u64,
    cpus: u64,
    formula: u64,
    lengths: u64,
    lent: u64,
}

/// Checks the sizes of the table, and the formula against the length functions for every n.
pub fn checked() -> Checked {
    let mut rows = Vec::new();
    for n in SIZES {
        for cpus in CPUS {
            rows.push(Row {
                n,
                cpus,
                formula: formula(n, cpus),
                lengths: lengths(n, cpus),
                lent: lent(n, cpus),
            });
        }
    }
    let wrong = |row: &&Row| row.lengths != row.formula || row.lent != row.formula;
    let mut differing: Vec<u64> = rows.iter().filter(wrong).map(|row| row.n).collect();
    differing.extend((1..=MOST).filter(|&n| formula(n, 8) != lengths(n, 8)));
    Checked {
        tried: rows.len() as u64 + MOST,
        rows,
        differing,
    }
}

/// Prints the bytes.
pub fn print(out: &mut impl Write, checked: &Checked) -> io::Result<()> {
    writeln!(
        out,
        "# Bytes of the tables: {HUGE} a huge frame, {TREE} a tree, {CPU} a CPU, {HEADER} for the header; by the length functions; of the slices lent."
    )?;
    let columns = Columns::of(&[&COLUMNS]);
    columns.head(out)?;
    for row in &checked.rows {
        let gib = row.n as f64 / GIB;
        columns.row(
            out,
            &[
                row.n.to_string(),
                row.cpus.to_string(),
                format!("{gib:.3}"),
                row.formula.to_string(),
                row.lengths.to_string(),
                row.lent.to_string(),
                format!("{:.0}", row.lent as f64 / gib),
            ],
        )?;
    }
    writeln!(out, "{} sizes checked", checked.tried)
}

/// What the sizes show.
pub fn verdict(checked: &Checked) -> Verdict {
    let row = match checked.differing.first() {
        None => format!("none of {} sizes", checked.tried),
        Some(n) => format!("n {n}"),
    };
    let differing = checked.differing.len() as f64;
    Verdict::worst(
        "sizes whose tables take other than 66 n + 2 trees + 8 CPUs + 8 bytes",
        0.0,
        [(differing, row)],
    )
    .binding(true)
}
