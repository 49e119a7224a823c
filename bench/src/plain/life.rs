//! Create and open, one store a step.

use super::check::{CLEAN, MOST_HUGE, RUNNING, Shape, header};
use super::entries::{CHILD_FRAMES, Child};
use super::get::entry;
use super::{Answer, Refusal, Tables, settle};

/// A create under way.
#[derive(Clone, Copy, Debug, PartialEq, Eq)]
pub enum Creating {
    Words(u32),
    Children(u32),
    Trees(u32),
    Cpus(u32),
    Header,
}

/// An open under way.
#[derive(Clone, Copy, Debug, PartialEq, Eq)]
pub enum Opening {
    Children(u32),
    Trees(u32),
    Cpus(u32),
}

type Made<R> = Result<Answer<R>, Refusal>;

/// Up to `fuel` steps, at least one, and how many were made.
#[inline(always)]
fn follow<R: Copy>(
    mut record: R,
    fuel: u64,
    mut step: impl FnMut(R) -> Made<R>,
) -> (Answer<R>, u64) {
    let mut steps = 0;
    while steps < fuel.max(1) {
        steps += 1;
        match settle(step(record)) {
            Answer::UnderWay(next) => record = next,
            ended => return (ended, steps),
        }
    }
    (Answer::UnderWay(record), steps)
}

// Create.
impl Tables<'_> {
    #[inline(always)]
    fn create_checks(&self, n: u64) -> Result<Shape, Refusal> {
        if n == 0 || n > MOST_HUGE {
            return Err(Refusal::BadSize);
        }
        self.check_lengths(n)
    }

    /// Create's first step.
    pub fn create(&mut self, n: u64) -> Answer<Creating> {
        settle(self.create_checks(n).and_then(|_| {
            *entry(self.header, 0)? = 0;
            Ok(Answer::UnderWay(Creating::Words(0)))
        }))
    }

    /// Up to `fuel` later steps of create, at least one.
    #[inline(never)]
    pub fn create_run(&mut self, record: Creating, n: u64, fuel: u64) -> (Answer<Creating>, u64) {
        let mut zone = self.lend();
        follow(record, fuel, |record| zone.create_step(record, n))
    }

    #[inline(always)]
    fn create_step(&mut self, record: Creating, n: u64) -> Made<Creating> {
        let shape = self.create_checks(n)?;
        let next = match record {
            Creating::Words(at) => {
                *entry(self.words, at as usize)? = 0;
                after(at, shape.n * 8).map_or(Creating::Children(0), Creating::Words)
            }
            Creating::Children(huge) => {
                *entry(self.children, huge as usize)? = CHILD_FRAMES;
                after(huge, shape.n).map_or(Creating::Trees(0), Creating::Children)
            }
            Creating::Trees(tree) => {
                *entry(self.trees, tree as usize)? = shape.capacity(tree as u16);
                after(tree, shape.trees.into()).map_or(Creating::Cpus(0), Creating::Trees)
            }
            Creating::Cpus(cpu) => {
                *entry(self.cpus, cpu as usize)? = 0;
                after(cpu, shape.cpus.into()).map_or(Creating::Header, Creating::Cpus)
            }
            Creating::Header => {
                *entry(self.header, 0)? = header(RUNNING, n);
                return Ok(Answer::Done(0));
            }
        };
        Ok(Answer::UnderWay(next))
    }
}

#[inline(always)]
fn after(at: u32, length: u32) -> Option<u32> {
    (at + 1 < length).then_some(at + 1)
}

// Open.
impl Tables<'_> {
    /// Open's first step, which makes all checks.
    #[inline(never)]
    pub fn open(&mut self) -> Answer<Opening> {
        settle(self.open_first())
    }

    fn open_first(&mut self) -> Made<Opening> {
        let (marker, n) = self.checked_header()?;
        self.check_lengths(n)?;
        for &child in &*self.children {
            Child::split(child)?;
        }
        let clean = marker == CLEAN;
        if !clean && self.flagged_over_bits() {
            return Err(Refusal::Damaged);
        }
        *entry(self.header, 0)? = header(RUNNING, n);
        Ok(Answer::UnderWay(if clean {
            Opening::Trees(0)
        } else {
            Opening::Children(0)
        }))
    }

    /// Whether a child with its flag set has a field that is not all zero.
    fn flagged_over_bits(&self) -> bool {
        let fields = self.words.chunks_exact(8);
        let mut children = self.children.iter().zip(fields);
        children.any(|(&child, field)| {
            matches!(Child::split(child), Ok(Child::Flagged)) && field.iter().any(|&word| word != 0)
        })
    }

    /// Up to `fuel` later steps of open, at least one.
    #[inline(never)]
    pub fn open_run(&mut self, record: Opening, fuel: u64) -> (Answer<Opening>, u64) {
        let mut zone = self.lend();
        follow(record, fuel, |record| zone.open_step(record))
    }

    #[inline(always)]
    fn open_step(&mut self, record: Opening) -> Made<Opening> {
        let shape = self.check_running()?;
        let next = match record {
            Opening::Children(huge) => {
                self.recount(huge)?;
                after(huge, shape.n).map_or(Opening::Trees(0), Opening::Children)
            }
            Opening::Trees(tree) => {
                let sum = self.children_sum(shape, tree as u16)?;
                *entry(self.trees, tree as usize)? = sum;
                after(tree, shape.trees.into()).map_or(Opening::Cpus(0), Opening::Trees)
            }
            Opening::Cpus(cpu) => {
                *entry(self.cpus, cpu as usize)? = 0;
                match after(cpu, shape.cpus.into()) {
                    Some(cpu) => Opening::Cpus(cpu),
                    None => return Ok(Answer::Done(0)),
                }
            }
        };
        Ok(Answer::UnderWay(next))
    }

    /// A child with a clear gets the count of zero bits in its field.
    #[inline(always)]
    fn recount(&mut self, huge: u32) -> Result<(), Refusal> {
        let huge = huge as usize;
        let stored = entry(self.children, huge)?;
        if let Child::Counts(_) = Child::split(*stored)? {
            let field = self.words.get(huge * 8..huge * 8 + 8);
            let field = field.ok_or(Refusal::BadRecord)?;
            let zeros: u32 = field.iter().map(|word| word.count_zeros()).sum();
            *stored = zeros as u16;
        }
        Ok(())
    }

    #[inline(always)]
    fn children_sum(&self, shape: Shape, tree: u16) -> Result<u16, Refusal> {
        let first = usize::from(tree) * 32;
        let part = first..first + usize::from(shape.width(tree));
        let children = self.children.get(part).ok_or(Refusal::BadRecord)?;
        let mut sum = 0;
        for &child in children {
            if let Child::Counts(count) = Child::split(child)? {
                sum += count;
            }
        }
        Ok(sum)
    }
}
