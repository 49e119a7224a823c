//! What takes and gives back blocks, each behind the same two calls.

use crate::memory::Memory;
use crate::plain::{self, Answer, Record};
use reference::operation::Operation;
use reference::zone::Zone;

/// Takes and gives back blocks. A refusal ends the benchmark: none is expected.
pub trait Engine {
    fn get(&mut self, cpu: u64, order: u64) -> u64;
    fn put(&mut self, cpu: u64, frame: u64, order: u64);
}

/// An engine whose operations are begun by one call and ended by others.
trait Begins {
    type Begun;
    fn begin_get(&mut self, cpu: u64, order: u64) -> Self::Begun;
    fn begin_put(&mut self, cpu: u64, frame: u64, order: u64) -> Self::Begun;
    /// The frame of the operation, taken to its end.
    fn end(&mut self, begun: Self::Begun) -> u64;
}

impl<B: Begins> Engine for B {
    #[inline]
    fn get(&mut self, cpu: u64, order: u64) -> u64 {
        let begun = self.begin_get(cpu, order);
        self.end(begun)
    }

    #[inline]
    fn put(&mut self, cpu: u64, frame: u64, order: u64) {
        let begun = self.begin_put(cpu, frame, order);
        self.end(begun);
    }
}

#[cold]
#[inline(never)]
fn refused(number: u64) -> ! {
    panic!("refused with {number}")
}

/// The library, one call an operation: begun and run to its end.
pub struct LibraryOne<'a>(pub lovarntek::Tables<'a>);

/// The plain engine, one call an operation.
pub struct PlainOne<'a>(pub plain::Tables<'a>);

/// The plain engine, one call an operation; the library's two words are written at its end.
pub struct WordsOne<'a>(pub plain::Tables<'a>);

/// The library: begun by one call, then by single steps, or run to the end by another call.
pub struct Library<'a, const STEPS: bool>(pub lovarntek::Tables<'a>);

/// The plain engine, its record an enum.
pub struct Plain<'a, const STEPS: bool>(pub plain::Tables<'a>);

/// The plain engine, its record the library's two words between the calls.
pub struct Words<'a, const STEPS: bool>(pub plain::Tables<'a>);

/// The independent program, by single steps.
pub struct Reference(pub Zone);

/// The frame of an operation that has ended well.
#[inline(always)]
fn ended(number: u64, frame: u64) -> u64 {
    if number != 0 {
        refused(number);
    }
    frame
}

impl Engine for LibraryOne<'_> {
    #[inline]
    fn get(&mut self, cpu: u64, order: u64) -> u64 {
        let ran = self.0.get_run(&mut [0; 2], cpu, order, u64::MAX);
        ended(ran.number, ran.frame)
    }

    #[inline]
    fn put(&mut self, cpu: u64, frame: u64, order: u64) {
        let ran = self.0.put_run(&mut [0; 2], cpu, frame, order, u64::MAX);
        ended(ran.number, ran.frame);
    }
}

impl Engine for PlainOne<'_> {
    #[inline]
    fn get(&mut self, cpu: u64, order: u64) -> u64 {
        let (answer, _) = self.0.get_run(cpu, order, u64::MAX);
        ended(answer.number(), answer.frame())
    }

    #[inline]
    fn put(&mut self, cpu: u64, frame: u64, order: u64) {
        let (answer, _) = self.0.put_run(cpu, frame, order, u64::MAX);
        ended(answer.number(), answer.frame());
    }
}

impl Engine for WordsOne<'_> {
    #[inline]
    fn get(&mut self, cpu: u64, order: u64) -> u64 {
        let words = &mut [0; 2];
        let (number, frame, _) = self.0.get_run_words(words, cpu, order, u64::MAX);
        ended(number, frame)
    }

    #[inline]
    fn put(&mut self, cpu: u64, frame: u64, order: u64) {
        let words = &mut [0; 2];
        let (number, frame, _) = self.0.put_run_words(words, cpu, frame, order, u64::MAX);
        ended(number, frame);
    }
}

/// An answer's number, and the record's words.
type Numbered = (u64, [u64; 2]);

/// Ends an operation over words by calls that give a number and a frame: one call, or as many as it takes.
#[inline(always)]
fn end_words<const STEPS: bool>(
    begun: Numbered,
    mut call: impl FnMut(&mut [u64; 2]) -> (u64, u64),
) -> u64 {
    let (mut number, mut record) = begun;
    let mut frame = 0;
    if number != 1 {
        refused(number);
    }
    while number == 1 {
        (number, frame) = call(&mut record);
        if !STEPS {
            break;
        }
    }
    ended(number, frame)
}

impl<const STEPS: bool> Begins for Library<'_, STEPS> {
    type Begun = Numbered;

    #[inline]
    fn begin_get(&mut self, cpu: u64, order: u64) -> Numbered {
        let mut record = [0; 2];
        let number = self.0.get(&mut record, cpu, order).number;
        (number, record)
    }

    #[inline]
    fn begin_put(&mut self, cpu: u64, frame: u64, order: u64) -> Numbered {
        let mut record = [0; 2];
        let number = self.0.put(&mut record, cpu, frame, order).number;
        (number, record)
    }

    #[inline]
    fn end(&mut self, begun: Numbered) -> u64 {
        end_words::<STEPS>(begun, |record| {
            if STEPS {
                let told = self.0.step(record);
                (told.number, told.frame)
            } else {
                let ran = self.0.run(record, u64::MAX);
                (ran.number, ran.frame)
            }
        })
    }
}

impl<const STEPS: bool> Begins for Words<'_, STEPS> {
    type Begun = Numbered;

    #[inline]
    fn begin_get(&mut self, cpu: u64, order: u64) -> Numbered {
        let mut record = [0; 2];
        let (number, _) = self.0.get_words(&mut record, cpu, order);
        (number, record)
    }

    #[inline]
    fn begin_put(&mut self, cpu: u64, frame: u64, order: u64) -> Numbered {
        let mut record = [0; 2];
        let (number, _) = self.0.put_words(&mut record, cpu, frame, order);
        (number, record)
    }

    #[inline]
    fn end(&mut self, begun: Numbered) -> u64 {
        end_words::<STEPS>(begun, |record| {
            if STEPS {
                self.0.step_words(record)
            } else {
                let (number, frame, _) = self.0.run_words(record, u64::MAX);
                (number, frame)
            }
        })
    }
}

impl<const STEPS: bool> Begins for Plain<'_, STEPS> {
    type Begun = Answer<Record>;

    #[inline]
    fn begin_get(&mut self, cpu: u64, order: u64) -> Answer<Record> {
        self.0.get(cpu, order)
    }

    #[inline]
    fn begin_put(&mut self, cpu: u64, frame: u64, order: u64) -> Answer<Record> {
        self.0.put(cpu, frame, order)
    }

    #[inline]
    fn end(&mut self, mut answer: Answer<Record>) -> u64 {
        while let Answer::UnderWay(record) = answer {
            answer = if STEPS {
                self.0.step(record)
            } else {
                self.0.run(record, u64::MAX).0
            };
            if !STEPS {
                break;
            }
        }
        match answer {
            Answer::Done(frame) => frame,
            other => refused(other.number()),
        }
    }
}

impl Begins for Reference {
    type Begun = reference::answer::Answer<Operation>;

    fn begin_get(&mut self, cpu: u64, order: u64) -> Self::Begun {
        self.0.begin_get(cpu, order)
    }

    fn begin_put(&mut self, cpu: u64, frame: u64, order: u64) -> Self::Begun {
        self.0.begin_put(cpu, frame, order)
    }

    fn end(&mut self, begun: Self::Begun) -> u64 {
        let mut answer = begun;
        while let reference::answer::Answer::UnderWay(operation) = answer {
            answer = self.0.step(operation);
        }
        match answer.number() {
            0 => answer.frame(),
            number => refused(number.into()),
        }
    }
}

/// Which engine.
#[derive(Clone, Copy, Debug, PartialEq, Eq)]
pub enum Side {
    LibraryRun,
    PlainRun,
    WordsRun,
    LibraryTwo,
    PlainTwo,
    WordsTwo,
    LibraryStep,
    PlainStep,
    WordsStep,
    Reference,
}

impl Side {
    /// Every engine, in the order of their numbers.
    pub const ALL: [Side; 10] = [
        Side::LibraryRun,
        Side::PlainRun,
        Side::WordsRun,
        Side::LibraryTwo,
        Side::PlainTwo,
        Side::WordsTwo,
        Side::LibraryStep,
        Side::PlainStep,
        Side::WordsStep,
        Side::Reference,
    ];

    /// Lends tables to the engine and does some work with it.
    pub fn with<W: Work>(self, memory: &mut Memory, work: W) -> W::Made {
        match self {
            Side::LibraryRun => work.with(&mut LibraryOne(memory.library())),
            Side::PlainRun => work.with(&mut PlainOne(memory.plain())),
            Side::WordsRun => work.with(&mut WordsOne(memory.plain())),
            Side::LibraryTwo => work.with(&mut Library::<false>(memory.library())),
            Side::PlainTwo => work.with(&mut Plain::<false>(memory.plain())),
            Side::WordsTwo => work.with(&mut Words::<false>(memory.plain())),
            Side::LibraryStep => work.with(&mut Library::<true>(memory.library())),
            Side::PlainStep => work.with(&mut Plain::<true>(memory.plain())),
            Side::WordsStep => work.with(&mut Words::<true>(memory.plain())),
            Side::Reference => work.with(&mut Reference(memory.reference())),
        }
    }
}

/// Work for any engine.
pub trait Work {
    type Made;
    fn with(self, engine: &mut impl Engine) -> Self::Made;
}
