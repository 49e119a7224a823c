//! The work that callgrind counts, in the order in which the counts are read.
//!
//! Callgrind dumps its counter at each call of [`bench_mark`]. Every job is done N times, then 2 N times; the difference is N jobs. What restoring the zone
//! costs is counted in the same way and taken off.

use std::hint::black_box;

use crate::engines::{Engine, Side, Work};
use crate::memory::Memory;
use crate::plain::Record;
use crate::stages::{self, At, CPUS, Stage, Touched};
use crate::workload::{Case, Kind, repeat};

/// The hidden command that is run under callgrind.
pub const COMMAND: &str = "work";
pub const TIMES: u64 = 400;
pub const SIZES: [u64; 2] = [64, 65_536];
pub const ORDERS: [u64; 3] = [0, 3, 9];
/// The ways of a stage: nothing but restoring, the library, the plain engine, the same over words.
pub const WAYS: usize = 4;

/// Callgrind dumps its counter before each call.
#[unsafe(no_mangle)]
#[inline(never)]
pub extern "C" fn bench_mark(at: u64) {
    black_box(at);
}

/// The trees in which stages are counted: the first and the last.
pub fn trees(n: u64) -> [At; 2] {
    [At::first(), At::last(n)]
}

/// Does all the work, with a mark before and after each job.
pub fn work() {
    for n in SIZES {
        let mut created = Memory::created(n, CPUS);
        let mut memory = created.clone();
        for at in trees(n) {
            for stage in stages::all(at) {
                memory.copy_from(&mut created);
                stage.prepare(&mut memory);
                stage_jobs(&stage, &mut memory);
            }
        }
        for order in ORDERS {
            for side in Side::ALL {
                memory.copy_from(&mut created);
                pair_jobs(side, n, order, &mut memory);
            }
        }
    }
}

/// A job, N times and then 2 N times.
fn twice(mut job: impl FnMut(u64)) {
    for times in [TIMES, 2 * TIMES] {
        bench_mark(times);
        job(times);
    }
    bench_mark(0);
}

fn stage_jobs(stage: &Stage, memory: &mut Memory) {
    let touched = stage.touched(memory);
    let (words, record) = (stage.words(), stage.record);
    for way in 0..WAYS {
        twice(|times| match way {
            0 => restores(memory, touched, times),
            1 => library_steps(memory, touched, words, times),
            2 => plain_steps(memory, touched, record, times),
            _ => plain_words(memory, touched, words, times),
        });
    }
}

/// Restores the entry that a step has changed.
#[inline(never)]
fn restore(
    touched: Touched,
    words: &mut [u64],
    children: &mut [u16],
    trees: &mut [u16],
    cpus: &mut [u64],
) {
    match touched {
        Touched::Nothing => {}
        Touched::Word(at, entry) => words[at] = entry,
        Touched::Child(at, entry) => children[at] = entry,
        Touched::Tree(at, entry) => trees[at] = entry,
        Touched::Cpu(at, entry) => cpus[at] = entry,
    }
}

#[inline(never)]
fn restores(memory: &mut Memory, touched: Touched, times: u64) {
    let zone = memory.library();
    for _ in 0..times {
        restore(touched, zone.words, zone.children, zone.trees, zone.cpus);
    }
}

#[inline(never)]
fn library_steps(memory: &mut Memory, touched: Touched, words: [u64; 2], times: u64) {
    let mut zone = memory.library();
    for _ in 0..times {
        restore(touched, zone.words, zone.children, zone.trees, zone.cpus);
        let mut record = words;
        black_box(zone.step(&mut record));
        black_box(record);
    }
}

#[inline(never)]
fn plain_steps(memory: &mut Memory, touched: Touched, record: Record, times: u64) {
    let mut zone = memory.plain();
    for _ in 0..times {
        restore(touched, zone.words, zone.children, zone.trees, zone.cpus);
        black_box(zone.step(record));
    }
}

#[inline(never)]
fn plain_words(memory: &mut Memory, touched: Touched, words: [u64; 2], times: u64) {
    let mut zone = memory.plain();
    for _ in 0..times {
        restore(touched, zone.words, zone.children, zone.trees, zone.cpus);
        let mut record = words;
        black_box(zone.step_words(&mut record));
        black_box(record);
    }
}

struct Pairs {
    case: Case,
}

impl Work for Pairs {
    type Made = ();

    fn with(self, engine: &mut impl Engine) {
        repeat(engine, self.case, 3);
        twice(|times| repeat(engine, self.case, times));
    }
}

/// Gets and puts of one block.
fn pair_jobs(side: Side, n: u64, order: u64, memory: &mut Memory) {
    let case = Case {
        kind: Kind::Repeat,
        order,
        n,
        cpus: 1,
    };
    side.with(memory, Pairs { case });
}
