//! Create and open at 65,536 huge frames, 128 GiB.

mod acts;
mod recount;

use std::io::{self, Write};
use std::time::Duration;

use crate::memory::Memory;
use crate::table::{Column, Columns, quotient, ratio};
use crate::timing::{progress, progressed};
use crate::verdict::Verdict;
use acts::{Act, medians};
use recount::Recount;
use reference::rng::Rng;

const N: u64 = 65_536;
const CPUS: usize = 8;
const REPETITIONS: usize = 9;
/// The most passes of a recount, and the most time of an open by the independent program's.
const PASSES: f64 = 3.0;
const OPEN: f64 = 1.25;
/// The bits of the header's marker that change between running and clean.
const MARKER: u64 = 3 << 42;

const ACTS: [Column; 6] = [
    ("", 20),
    ("library", 10),
    ("rust", 10),
    ("ratio", 7),
    ("reference", 10),
    ("ratio", 7),
];

const RECOUNT: [Column; 3] = [("", 20), ("ms", 10), ("passes", 10)];

/// Milliseconds, where they were measured.
type Spent = Option<f64>;

/// What was measured: each act on each side, and the recount.
pub struct Measured {
    acts: Vec<(Act, Vec<Spent>)>,
    recount: Recount,
}

/// A zone with half of its frames taken at random, and one of eight huge frames taken as a whole.
fn half_taken() -> Memory {
    let mut memory = Memory::created(N, CPUS);
    let mut rng = Rng::new(1, 1);
    let zone = memory.library();
    let fields = zone.words.chunks_exact_mut(8);
    for (child, field) in zone.children.iter_mut().zip(fields) {
        if rng.below(8) == 0 {
            *child = 0x8000;
            continue;
        }
        field.fill_with(|| rng.any());
        *child = field.iter().map(|word| word.count_zeros() as u16).sum();
    }
    memory
}

/// Measures create, open and the recount.
pub fn measured() -> Measured {
    let mut cut = half_taken();
    let mut closed = cut.clone();
    closed.library().header[0] ^= MARKER;
    let acts = [Act::Create, Act::OpenCut, Act::OpenClosed];
    let mut spent = Vec::new();
    for (at, act) in acts.into_iter().enumerate() {
        progress(at + 1, acts.len() + 1, act.name());
        let begin = match act {
            Act::OpenClosed => &mut closed,
            _ => &mut cut,
        };
        spent.push((act, medians(act, begin)));
    }
    progress(acts.len() + 1, acts.len() + 1, "recount");
    let recount = recount::measured(&mut cut);
    progressed();
    Measured {
        acts: spent,
        recount,
    }
}

fn milliseconds(time: Duration) -> f64 {
    time.as_secs_f64() * 1_000.0
}

/// Prints the tables.
pub fn print(out: &mut impl Write, measured: &Measured) -> io::Result<()> {
    writeln!(
        out,
        "# Milliseconds of CPU time at n = {N}, run to the end, medians of {REPETITIONS}, the sides in turns; ratio is library / the column before."
    )?;
    let columns = Columns::of(&[&ACTS]);
    columns.head(out)?;
    for (act, sides) in &measured.acts {
        let &[library, plain, reference] = &sides[..] else {
            continue;
        };
        let fields = [
            String::from(act.name()),
            shown(library),
            shown(plain),
            ratio(library, plain),
            shown(reference),
            ratio(library, reference),
        ];
        columns.row(out, &fields)?;
    }
    let recount = &measured.recount;
    writeln!(
        out,
        "# Recount of {N} children, and passes over their words: milliseconds, and passes (of the sum)."
    )?;
    let columns = Columns::of(&[&RECOUNT]);
    columns.head(out)?;
    for (name, spent) in [
        ("library", recount.library),
        ("rust", recount.plain),
        ("pass: sum", recount.sum),
        ("pass: zero bits", recount.zeros),
    ] {
        let fields = [String::from(name), shown(spent), ratio(spent, recount.sum)];
        columns.row(out, &fields)?;
    }
    Ok(())
}

fn shown(spent: Spent) -> String {
    spent.map_or(String::from("-"), |ms| format!("{ms:.3}"))
}

/// What the times show.
pub fn verdicts(measured: &Measured) -> Vec<Verdict> {
    let note = |name: &str| format!("{name}; median of {REPETITIONS}");
    let opens = measured.acts.iter().filter(|(act, _)| *act != Act::Create);
    let opens = opens.filter_map(|(act, sides)| {
        let ratio = quotient(sides[0], sides[2])?;
        Some((ratio, note(act.name())))
    });
    let recount = &measured.recount;
    let passes = |what, pass| {
        let passes = quotient(recount.library, pass);
        Verdict::worst(what, PASSES, passes.map(|passes| (passes, note("recount"))))
    };
    vec![
        passes(
            "recount of 65536 children, plain passes that sum the words",
            recount.sum,
        ),
        passes(
            "the same, plain passes that count the words' zero bits",
            recount.zeros,
        ),
        Verdict::worst(
            "open as a whole, time by the independent program's",
            OPEN,
            opens,
        ),
    ]
}
