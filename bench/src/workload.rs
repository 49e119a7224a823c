//! The paper's three benchmarks: bulk, random, repeat.

use std::fmt;
use std::time::Duration;

use crate::engines::{Engine, Side, Work};
use crate::memory::Memory;
use crate::timing::{each, time};
use reference::rng::Rng;

#[derive(Clone, Copy, Debug, PartialEq, Eq)]
pub enum Kind {
    /// Takes half of the memory, then gives it back.
    Bulk,
    /// Gives all of the memory back in random order; only this is measured.
    Random,
    /// Takes and gives back one block.
    Repeat,
}

impl Kind {
    pub fn name(self) -> &'static str {
        match self {
            Kind::Bulk => "bulk",
            Kind::Random => "random",
            Kind::Repeat => "repeat",
        }
    }
}

/// A benchmark on one zone.
#[derive(Clone, Copy, Debug, PartialEq, Eq)]
pub struct Case {
    pub kind: Kind,
    pub order: u64,
    pub n: u64,
    pub cpus: u64,
}

impl fmt::Display for Case {
    fn fmt(&self, f: &mut fmt::Formatter<'_>) -> fmt::Result {
        let Case {
            kind,
            order,
            n,
            cpus,
        } = self;
        write!(f, "{}, order {order}, n {n}, CPUs {cpus}", kind.name())
    }
}

impl Case {
    /// Blocks of the zone.
    pub fn blocks(&self) -> u64 {
        (self.n * 512) >> self.order
    }

    /// Operations of one round; `least` those of a repetition.
    fn operations(&self, least: u64) -> u64 {
        match self.kind {
            Kind::Bulk | Kind::Random => self.blocks(),
            Kind::Repeat => least,
        }
    }
}

/// A zone and its blocks, ready for a case.
pub struct Stand {
    case: Case,
    /// Operations of a repetition, at least.
    least: u64,
    begin: Memory,
    memory: Memory,
    frames: Vec<u64>,
}

impl Stand {
    pub fn new(case: Case, least: u64) -> Self {
        let mut begin = Memory::created(case.n, case.cpus as usize);
        let frames = match case.kind {
            Kind::Bulk => vec![0; case.blocks() as usize / 2],
            Kind::Random => all_taken(case, &mut begin),
            Kind::Repeat => Vec::new(),
        };
        Stand {
            case,
            least,
            memory: begin.clone(),
            begin,
            frames,
        }
    }

    /// Nanoseconds an operation, over one repetition.
    pub fn measure(&mut self, side: Side) -> f64 {
        let operations = self.case.operations(self.least);
        let rounds = self.least.div_ceil(operations);
        let mut total = Duration::ZERO;
        for _ in 0..rounds {
            self.memory.copy_from(&mut self.begin);
            let round = Round {
                case: self.case,
                pairs: operations / 2,
                frames: &mut self.frames,
            };
            total += side.with(&mut self.memory, round);
        }
        each(total, rounds * operations)
    }
}

/// Takes all blocks, and puts them into random order.
fn all_taken(case: Case, memory: &mut Memory) -> Vec<u64> {
    let mut frames = vec![0; case.blocks() as usize];
    let taking = Taking {
        case,
        frames: &mut frames,
    };
    Side::LibraryRun.with(memory, taking);
    shuffle(&mut frames);
    frames
}

pub fn shuffle(frames: &mut [u64]) {
    let mut rng = Rng::new(1, 1);
    for last in (1..frames.len()).rev() {
        let other = rng.below(last as u64 + 1) as usize;
        frames.swap(last, other);
    }
}

struct Taking<'a> {
    case: Case,
    frames: &'a mut [u64],
}

impl Work for Taking<'_> {
    type Made = ();

    fn with(self, engine: &mut impl Engine) {
        take(engine, self.case, self.frames);
    }
}

struct Round<'a> {
    case: Case,
    /// Of repeat: a get and a put each.
    pairs: u64,
    frames: &'a mut [u64],
}

impl Work for Round<'_> {
    type Made = Duration;

    fn with(self, engine: &mut impl Engine) -> Duration {
        let Round {
            case,
            pairs,
            frames,
        } = self;
        let (spent, ()) = time(|| match case.kind {
            Kind::Bulk => {
                take(engine, case, frames);
                give(engine, case, frames);
            }
            Kind::Random => give(engine, case, frames),
            Kind::Repeat => repeat(engine, case, pairs),
        });
        spent
    }
}

/// The CPU whose turn is next.
fn next(cpu: u64, case: Case) -> u64 {
    if cpu + 1 < case.cpus { cpu + 1 } else { 0 }
}

pub fn take(engine: &mut impl Engine, case: Case, frames: &mut [u64]) {
    let mut cpu = 0;
    for frame in frames {
        *frame = engine.get(cpu, case.order);
        cpu = next(cpu, case);
    }
}

pub fn give(engine: &mut impl Engine, case: Case, frames: &[u64]) {
    let mut cpu = 0;
    for &frame in frames {
        engine.put(cpu, frame, case.order);
        cpu = next(cpu, case);
    }
}

pub fn repeat(engine: &mut impl Engine, case: Case, rounds: u64) {
    let mut cpu = 0;
    for _ in 0..rounds {
        let frame = engine.get(cpu, case.order);
        engine.put(cpu, frame, case.order);
        cpu = next(cpu, case);
    }
}
