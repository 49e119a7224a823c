//! The yardstick: gets and puts by single steps, create and open, with every check of a step, written by hand for speed.
//!
//! A record is an enum; [`codec`] packs it into the library's two words.

mod check;
pub mod codec;
mod entries;
mod get;
mod life;
mod places;
mod put;

pub use life::{Creating, Opening};
pub use places::Place;

use check::Shape;

/// The five tables, lent as slices of their own width.
#[derive(Debug)]
pub struct Tables<'a> {
    pub header: &'a mut [u64],
    pub words: &'a mut [u64],
    pub children: &'a mut [u16],
    pub trees: &'a mut [u16],
    pub cpus: &'a mut [u64],
}

/// An answer from 2 up.
#[derive(Clone, Copy, Debug, PartialEq, Eq)]
#[repr(u8)]
pub enum Refusal {
    NoRoom = 2,
    BadOrder = 3,
    BadFrame = 4,
    Misaligned = 5,
    NotTaken = 6,
    BadCpu = 7,
    BadBuffers = 8,
    NotAZone = 9,
    Closed = 10,
    BadRecord = 11,
    Damaged = 12,
    BadSize = 14,
}

/// What a call answers; `R` is the record of the operation under way.
#[derive(Clone, Copy, Debug, PartialEq, Eq)]
pub enum Answer<R> {
    Done(u64),
    UnderWay(R),
    Refused(Refusal),
}

impl<R> Answer<R> {
    pub fn number(&self) -> u64 {
        match self {
            Answer::Done(_) => 0,
            Answer::UnderWay(_) => 1,
            Answer::Refused(refusal) => *refusal as u64,
        }
    }

    pub fn frame(&self) -> u64 {
        match self {
            Answer::Done(frame) => *frame,
            _ => 0,
        }
    }
}

/// An order that blocks have: 0 to 6, or 9.
#[derive(Clone, Copy, Debug, PartialEq, Eq)]
pub struct Order(u8);

impl Order {
    pub const BASE: Order = Order(0);
    pub const HUGE: Order = Order(9);

    #[inline(always)]
    pub fn new(number: u64) -> Option<Self> {
        matches!(number, 0..=6 | 9).then_some(Order(number as u8))
    }

    #[inline(always)]
    pub fn number(self) -> u8 {
        self.0
    }

    #[inline(always)]
    fn is_huge(self) -> bool {
        self.0 == 9
    }

    /// Frames of a block.
    #[inline(always)]
    pub fn size(self) -> u16 {
        1 << (self.0 & 15)
    }
}

/// The record of a get or put.
#[derive(Clone, Copy, Debug, PartialEq, Eq)]
pub enum Record {
    Finished,
    Get {
        cpu: u8,
        order: Order,
        stage: Taking,
    },
    Put {
        cpu: u8,
        order: Order,
        stage: Giving,
    },
}

/// What a get's next step does.
#[derive(Clone, Copy, Debug, PartialEq, Eq)]
pub enum Taking {
    Own,
    TakeCount { tree: u16 },
    FillEntry { tree: u16, hand: u16 },
    ReturnHand { tree: u16, hand: u16 },
    LookAgain { tree: u16 },
    Release(Place),
    Unreserve { place: Place, hand: u16 },
    Try(Place),
    Write { place: Place, hand: u16 },
    Steal { from: u8 },
    StealCount { from: u8, tree: u16, hand: u16 },
    Child(Search),
    Word { search: Search, word: u8 },
    GiveBack(Search),
    Last { frame: u32 },
    Fail(Place),
    NoRoom,
}

/// Where a search stands.
#[derive(Clone, Copy, Debug, PartialEq, Eq)]
pub struct Search {
    pub place: Place,
    pub start: u8,
    pub child: u8,
}

/// What a put's next step does.
#[derive(Clone, Copy, Debug, PartialEq, Eq)]
pub enum Giving {
    Clear { frame: u32 },
    Raise { frame: u32 },
    ToEntry { frame: u32 },
    ToTree { frame: u32 },
}

type Step = Result<Answer<Record>, Refusal>;

#[inline(always)]
fn settle<R>(step: Result<Answer<R>, Refusal>) -> Answer<R> {
    step.unwrap_or_else(Answer::Refused)
}

/// Writes the record of an answer as two words, the finished one where there is none.
#[inline(always)]
fn packed(words: &mut [u64; 2], answer: Answer<Record>) -> (u64, u64) {
    *words = match answer {
        Answer::UnderWay(record) => codec::encode(record),
        _ => [0, 0],
    };
    (answer.number(), answer.frame())
}

impl Tables<'_> {
    /// Begins a get.
    #[inline(never)]
    pub fn get(&self, cpu: u64, order: u64) -> Answer<Record> {
        settle(self.begin_get(cpu, order))
    }

    /// Begins a put.
    #[inline(never)]
    pub fn put(&self, cpu: u64, frame: u64, order: u64) -> Answer<Record> {
        settle(self.begin_put(cpu, frame, order))
    }

    /// One step of a get or put.
    #[inline(never)]
    pub fn step(&mut self, record: Record) -> Answer<Record> {
        self.made(record)
    }

    /// Begins a get; its record is two words. The answer's number and frame.
    #[inline(never)]
    pub fn get_words(&self, words: &mut [u64; 2], cpu: u64, order: u64) -> (u64, u64) {
        packed(words, settle(self.begin_get(cpu, order)))
    }

    /// Begins a put; its record is two words.
    #[inline(never)]
    pub fn put_words(&self, words: &mut [u64; 2], cpu: u64, frame: u64, order: u64) -> (u64, u64) {
        packed(words, settle(self.begin_put(cpu, frame, order)))
    }

    /// One step over the record's two words.
    #[inline(never)]
    pub fn step_words(&mut self, words: &mut [u64; 2]) -> (u64, u64) {
        let answer = self.made(codec::decode(*words));
        packed(words, answer)
    }

    /// Up to `fuel` steps, at least one, over the record's two words, which are read before the first one and written after the last. The answer's number and
    /// frame, and how many steps were made.
    #[inline(never)]
    pub fn run_words(&mut self, words: &mut [u64; 2], fuel: u64) -> (u64, u64, u64) {
        let (answer, steps) = self.ran(codec::decode(*words), fuel.max(1));
        let (number, frame) = packed(words, answer);
        (number, frame, steps)
    }

    /// Up to `fuel` steps, at least one, and how many were made.
    #[inline(never)]
    pub fn run(&mut self, record: Record, fuel: u64) -> (Answer<Record>, u64) {
        self.ran(record, fuel.max(1))
    }

    /// Begins a get and, if that is answered 1, makes up to `fuel` steps; how many were made.
    #[inline(never)]
    pub fn get_run(&mut self, cpu: u64, order: u64, fuel: u64) -> (Answer<Record>, u64) {
        let begun = settle(self.begin_get(cpu, order));
        self.begun(begun, fuel)
    }

    /// Begins a put and, if that is answered 1, makes up to `fuel` steps; how many were made.
    #[inline(never)]
    pub fn put_run(
        &mut self,
        cpu: u64,
        frame: u64,
        order: u64,
        fuel: u64,
    ) -> (Answer<Record>, u64) {
        let begun = settle(self.begin_put(cpu, frame, order));
        self.begun(begun, fuel)
    }

    /// The same get; the record is two words, written after the last step. The answer's number and frame, and how many steps were made.
    #[inline(never)]
    pub fn get_run_words(
        &mut self,
        words: &mut [u64; 2],
        cpu: u64,
        order: u64,
        fuel: u64,
    ) -> (u64, u64, u64) {
        let begun = settle(self.begin_get(cpu, order));
        let (answer, steps) = self.begun(begun, fuel);
        let (number, frame) = packed(words, answer);
        (number, frame, steps)
    }

    /// The same put over two words.
    #[inline(never)]
    pub fn put_run_words(
        &mut self,
        words: &mut [u64; 2],
        cpu: u64,
        frame: u64,
        order: u64,
        fuel: u64,
    ) -> (u64, u64, u64) {
        let begun = settle(self.begin_put(cpu, frame, order));
        let (answer, steps) = self.begun(begun, fuel);
        let (number, frame) = packed(words, answer);
        (number, frame, steps)
    }

    /// What follows a beginning: up to `fuel` steps, where it is under way.
    #[inline(always)]
    fn begun(&mut self, answer: Answer<Record>, fuel: u64) -> (Answer<Record>, u64) {
        match answer {
            Answer::UnderWay(record) => self.ran(record, fuel),
            ended => (ended, 0),
        }
    }

    #[inline(always)]
    fn ran(&mut self, mut record: Record, fuel: u64) -> (Answer<Record>, u64) {
        let mut zone = self.lend();
        let mut steps = 0;
        while steps < fuel {
            steps += 1;
            match zone.made(record) {
                Answer::UnderWay(next) => record = next,
                ended => return (ended, steps),
            }
        }
        (Answer::UnderWay(record), steps)
    }

    /// The same slices in a value of its own, which the compiler keeps in registers.
    #[inline(always)]
    fn lend(&mut self) -> Tables<'_> {
        Tables {
            header: self.header,
            words: self.words,
            children: self.children,
            trees: self.trees,
            cpus: self.cpus,
        }
    }

    #[inline(always)]
    fn made(&mut self, record: Record) -> Answer<Record> {
        settle(self.checked_step(record))
    }

    #[inline(always)]
    fn checked_step(&mut self, record: Record) -> Step {
        let shape = self.check_running()?;
        match record {
            Record::Get { cpu, order, stage } => self.get_step(shape, cpu, order, stage),
            Record::Put { cpu, order, stage } => self.put_step(shape, cpu, order, stage),
            Record::Finished => Err(Refusal::BadRecord),
        }
    }

    #[inline(always)]
    fn begin_get(&self, cpu: u64, order: u64) -> Step {
        let (cpu, order) = self.begin(cpu, order)?;
        let stage = Taking::Own;
        Ok(Answer::UnderWay(Record::Get { cpu, order, stage }))
    }

    #[inline(always)]
    fn begin_put(&self, cpu: u64, frame: u64, order: u64) -> Step {
        let (cpu, order) = self.begin(cpu, order)?;
        if frame >= self.children.len() as u64 * 512 {
            return Err(Refusal::BadFrame);
        }
        if frame & u64::from(order.size() - 1) != 0 {
            return Err(Refusal::Misaligned);
        }
        let frame = frame as u32;
        let stage = Giving::Clear { frame };
        Ok(Answer::UnderWay(Record::Put { cpu, order, stage }))
    }

    /// The checks of a beginning before its frame's.
    #[inline(always)]
    fn begin(&self, cpu: u64, order: u64) -> Result<(u8, Order), Refusal> {
        let shape: Shape = self.check_running()?;
        if cpu >= u64::from(shape.cpus) {
            return Err(Refusal::BadCpu);
        }
        let order = Order::new(order).ok_or(Refusal::BadOrder)?;
        Ok((cpu as u8, order))
    }
}
