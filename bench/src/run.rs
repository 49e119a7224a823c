//! The tables of bulk, random and repeat.

use std::io::{self, Write};

use crate::engines::Side;
use crate::heap;
use crate::table::{BESIDE_RUST, BESIDE_WORDS, Column, Columns, Sides, number};
use crate::timing::{median, progress, progressed};
use crate::verdict::Verdict;
use crate::workload::{Case, Kind, Stand};

/// The columns that name a case.
const CASE: [Column; 4] = [("benchmark", 10), ("order", 6), ("n", 7), ("CPUs", 5)];
const HEAPS: [Column; 2] = [("malloc", 9), ("mimalloc", 9)];

/// Zones with more blocks are left out of a quick run, and are not given to the reference.
const MANY: u64 = 1 << 18;
/// Zones with more blocks are measured once, and only by one call an operation.
const VERY_MANY: u64 = 1 << 23;
/// The most time of a get and put run to their end, and of their single steps, by plain Rust's.
const RUN: f64 = 1.1;
const STEP: f64 = 1.75;

/// Whether every block of a large zone is taken.
fn large(case: Case, blocks: u64) -> bool {
    case.kind != Kind::Repeat && case.blocks() > blocks
}

fn repetitions(case: Case, quick: bool) -> usize {
    if large(case, VERY_MANY) {
        1
    } else if quick || large(case, MANY) {
        3
    } else {
        7
    }
}

/// Operations of a repetition, at least.
fn least(quick: bool) -> u64 {
    if quick { 30_000 } else { 100_000 }
}

/// The cases, in the order of the tables.
fn cases(quick: bool) -> Vec<Case> {
    let mut cases = Vec::new();
    for kind in [Kind::Bulk, Kind::Random, Kind::Repeat] {
        for order in [0, 3, 9] {
            for n in [64, 4_096, 65_536] {
                cases.push(Case {
                    kind,
                    order,
                    n,
                    cpus: 1,
                });
            }
        }
        cases.push(Case {
            kind,
            order: 0,
            n: 4_096,
            cpus: 8,
        });
    }
    cases.retain(|&case| !quick || !large(case, MANY));
    cases
}

/// The nanoseconds of a case.
struct Row {
    case: Case,
    repetitions: usize,
    sides: Sides,
    malloc: Option<f64>,
    mimalloc: Option<f64>,
}

/// What was measured.
pub struct Measured {
    rows: Vec<Row>,
    mimalloc: bool,
}

/// Measures every case.
pub fn measured(quick: bool) -> Measured {
    let cases = cases(quick);
    let preloaded = heap::mimalloc().as_deref().and_then(heap::preloaded);
    let mut rows = Vec::new();
    for (at, &case) in cases.iter().enumerate() {
        progress(at + 1, cases.len(), &case.to_string());
        rows.push(row(case, quick, preloaded.as_deref()));
    }
    progressed();
    Measured {
        rows,
        mimalloc: preloaded.is_some(),
    }
}

fn row(case: Case, quick: bool, preloaded: Option<&[f64]>) -> Row {
    let heaped = case.order == 0 && case.n == heap::N && case.cpus == 1;
    let of_kind = |numbers: &[f64]| numbers.get(case.kind as usize).copied();
    let repetitions = repetitions(case, quick);
    Row {
        case,
        repetitions,
        sides: sides(case, quick, repetitions),
        malloc: heaped.then(|| heap::measure(case.kind)).flatten(),
        mimalloc: preloaded.filter(|_| heaped).and_then(of_kind),
    }
}

/// Whether an engine is fast enough for a case.
fn measurable(case: Case, side: Side) -> bool {
    match side {
        Side::LibraryRun | Side::PlainRun | Side::WordsRun => true,
        Side::Reference => !large(case, MANY),
        _ => !large(case, VERY_MANY),
    }
}

/// The medians of the engines, which take turns.
fn sides(case: Case, quick: bool, repetitions: usize) -> Sides {
    let mut stand = Stand::new(case, least(quick));
    let mut numbers = vec![Vec::new(); Side::ALL.len()];
    for _ in 0..repetitions {
        for (numbers, &side) in numbers.iter_mut().zip(&Side::ALL) {
            if measurable(case, side) {
                numbers.push(stand.measure(side));
            }
        }
    }
    Sides(numbers.into_iter().map(median).collect())
}

/// Prints the tables.
pub fn print(out: &mut impl Write, measured: &Measured) -> io::Result<()> {
    let found = if measured.mimalloc {
        "loaded before the C library"
    } else {
        "not installed"
    };
    writeln!(
        out,
        "# Nanoseconds of CPU time an operation, medians of 7, 3 or 1 repetitions in which the engines take turns; ratio is library / the column before."
    )?;
    writeln!(
        out,
        "# run: begun and run to its end by one call; two: by two calls; step: by single steps, as the reference is, whose ratio is lib-run's."
    )?;
    writeln!(
        out,
        "# Left out as too slow: the reference above {MANY} blocks, two calls and single steps above {VERY_MANY}; repeat has one block."
    )?;
    let columns = Columns::of(&[&CASE, &BESIDE_RUST]);
    columns.head(out)?;
    for row in &measured.rows {
        columns.row(out, &keyed(row, row.sides.beside_rust()))?;
    }
    writeln!(
        out,
        "# words: plain Rust's record two words at each call. malloc: blocks of 4 KiB in 128 MiB that were touched before; mimalloc: {found}."
    )?;
    let columns = Columns::of(&[&CASE, &BESIDE_WORDS, &HEAPS]);
    columns.head(out)?;
    for row in &measured.rows {
        let mut fields = row.sides.beside_words();
        fields.extend([number(row.malloc), number(row.mimalloc)]);
        columns.row(out, &keyed(row, fields))?;
    }
    Ok(())
}

fn keyed(row: &Row, fields: Vec<String>) -> Vec<String> {
    let Case {
        kind,
        order,
        n,
        cpus,
    } = row.case;
    let mut all = vec![String::from(kind.name())];
    all.extend([order, n, cpus].map(|number| number.to_string()));
    all.extend(fields);
    all
}

/// What the times show.
pub fn verdicts(measured: &Measured) -> Vec<Verdict> {
    let worst = |what, bound, above, below, counted: fn(Kind) -> bool| {
        let rows = measured.rows.iter().filter(|row| counted(row.case.kind));
        let ratios = rows.filter_map(|row| {
            let ratio = row.sides.ratio(above, below)?;
            let named = format!("{}; median of {}", row.case, row.repetitions);
            Some((ratio, named))
        });
        Verdict::worst(what, bound, ratios)
    };
    vec![
        worst(
            "repeat, a get and put run to their end, time by plain Rust's",
            RUN,
            Side::LibraryRun,
            Side::PlainRun,
            |kind| kind == Kind::Repeat,
        ),
        worst(
            "bulk, the same",
            RUN,
            Side::LibraryRun,
            Side::PlainRun,
            |kind| kind == Kind::Bulk,
        ),
        worst(
            "random, puts alone, the same",
            RUN,
            Side::LibraryRun,
            Side::PlainRun,
            |kind| kind == Kind::Random,
        ),
        worst(
            "all three, time by plain Rust's over words",
            RUN,
            Side::LibraryRun,
            Side::WordsRun,
            |_| true,
        ),
        worst(
            "all three, begun by one call and run by another, time by plain Rust's",
            RUN,
            Side::LibraryTwo,
            Side::PlainTwo,
            |_| true,
        ),
        worst(
            "single steps through the C interface, time by plain Rust's",
            STEP,
            Side::LibraryStep,
            Side::PlainStep,
            |_| true,
        ),
    ]
}
