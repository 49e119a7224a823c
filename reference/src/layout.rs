//! The tables' entries as structs with named fields.
//!
//! Splitting keeps every bit, so a malformed entry can be held and stored
//! again unchanged; `well_formed` tells whether it keeps its layout.

pub const MAX_HUGE_FRAMES: u64 = 65_536;
pub const MAX_CPUS: usize = 64;
/// Base frames of a word.
pub const WORD_FRAMES: usize = 64;
/// Base frames of a huge frame.
pub const CHILD_FRAMES: usize = 512;
/// Words of a huge frame.
pub const CHILD_WORDS: usize = 8;
/// Children of a tree.
pub const TREE_CHILDREN: usize = 32;
/// Base frames of a whole tree.
pub const TREE_FRAMES: usize = TREE_CHILDREN * CHILD_FRAMES;

const IDENTIFIER: u16 = 0x4C46;
const FORMAT: u8 = 1;
pub const RUNNING: u8 = 1;
pub const CLEAN: u8 = 2;

/// Splits fields off a packed entry, from the most significant bit down.
struct Splitter {
    bits: u64,
    left: u32,
}

impl Splitter {
    fn new(bits: u64, width: u32) -> Self {
        Splitter { bits, left: width }
    }

    fn next(&mut self, width: u32) -> u64 {
        self.left -= width;
        (self.bits >> self.left) & ((1 << width) - 1)
    }
}

/// Joins (width, value) fields, the first the most significant.
fn join(fields: &[(u32, u64)]) -> u64 {
    fields.iter().fold(0, |bits, &(width, value)| {
        debug_assert!(value >> width == 0, "a field wider than its place");
        (bits << width) | value
    })
}

#[derive(Clone, Copy, Debug, PartialEq, Eq)]
pub struct Header {
    pub identifier: u16,
    pub format: u8,
    pub marker: u8,
    pub n: u32,
    pub zero: u32,
}

impl Header {
    pub fn running(n: usize) -> Self {
        Header {
            identifier: IDENTIFIER,
            format: FORMAT,
            marker: RUNNING,
            n: n as u32,
            zero: 0,
        }
    }

    pub fn clean(n: usize) -> Self {
        Header {
            marker: CLEAN,
            ..Header::running(n)
        }
    }

    pub fn split(bits: u64) -> Self {
        let mut fields = Splitter::new(bits, 64);
        Header {
            identifier: fields.next(16) as u16,
            format: fields.next(4) as u8,
            marker: fields.next(2) as u8,
            n: fields.next(17) as u32,
            zero: fields.next(25) as u32,
        }
    }

    pub fn join(self) -> u64 {
        join(&[
            (16, self.identifier.into()),
            (4, self.format.into()),
            (2, self.marker.into()),
            (17, self.n.into()),
            (25, self.zero.into()),
        ])
    }

    pub fn well_formed(self) -> bool {
        self.identifier == IDENTIFIER
            && self.format == FORMAT
            && (self.marker == RUNNING || self.marker == CLEAN)
            && (1..=MAX_HUGE_FRAMES).contains(&self.n.into())
            && self.zero == 0
    }
}

/// Sixty-four frames; bit i counted from the least significant, 1 is taken.
#[derive(Clone, Copy, Debug, PartialEq, Eq)]
pub struct Word(pub u64);

impl Word {
    pub fn taken(self, bit: usize) -> bool {
        (self.0 >> bit) & 1 == 1
    }

    pub fn zeros(self) -> usize {
        (0..64).filter(|&bit| !self.taken(bit)).count()
    }

    /// Whether every bit of a run is clear.
    pub fn free(self, run: Run) -> bool {
        self.0 & run.bits() == 0
    }

    /// Whether every bit of a run is set.
    pub fn full(self, run: Run) -> bool {
        self.0 & run.bits() == run.bits()
    }

    pub fn set(self, run: Run) -> Self {
        Word(self.0 | run.bits())
    }

    pub fn clear(self, run: Run) -> Self {
        Word(self.0 & !run.bits())
    }

    /// The first bits of the aligned runs of a size that are free, ascending.
    pub fn free_runs(self, size: usize) -> impl DoubleEndedIterator<Item = usize> {
        let starts = (0..WORD_FRAMES).step_by(size);
        starts.filter(move |&bit| self.free(Run { bit, size }))
    }
}

/// Neighbouring bits of one word.
#[derive(Clone, Copy, Debug, PartialEq, Eq)]
pub struct Run {
    /// The first one.
    pub bit: usize,
    /// How many there are, 1 to 64.
    pub size: usize,
}

impl Run {
    /// The run's bits, as far as the word goes.
    fn bits(self) -> u64 {
        (u64::MAX >> (WORD_FRAMES - self.size)) << self.bit
    }
}

#[derive(Clone, Copy, Debug, PartialEq, Eq)]
pub struct Child {
    /// Taken as one huge frame.
    pub a: bool,
    pub zero: u8,
    pub count: u16,
}

impl Child {
    /// Free as a whole.
    pub const FREE: Child = Child {
        a: false,
        zero: 0,
        count: CHILD_FRAMES as u16,
    };
    /// Taken as a whole.
    pub const TAKEN: Child = Child {
        a: true,
        zero: 0,
        count: 0,
    };

    pub fn split(bits: u16) -> Self {
        let mut fields = Splitter::new(bits.into(), 16);
        Child {
            a: fields.next(1) == 1,
            zero: fields.next(5) as u8,
            count: fields.next(10) as u16,
        }
    }

    pub fn join(self) -> u16 {
        join(&[
            (1, self.a.into()),
            (5, self.zero.into()),
            (10, self.count.into()),
        ]) as u16
    }

    pub fn well_formed(self) -> bool {
        self.zero == 0 && usize::from(self.count) <= CHILD_FRAMES && !(self.a && self.count != 0)
    }
}

#[derive(Clone, Copy, Debug, PartialEq, Eq)]
pub struct Tree {
    pub reserved: bool,
    pub count: u16,
}

impl Tree {
    pub fn split(bits: u16) -> Self {
        let mut fields = Splitter::new(bits.into(), 16);
        Tree {
            reserved: fields.next(1) == 1,
            count: fields.next(15) as u16,
        }
    }

    pub fn join(self) -> u16 {
        join(&[(1, self.reserved.into()), (15, self.count.into())]) as u16
    }

    pub fn well_formed(self, capacity: usize) -> bool {
        usize::from(self.count) <= capacity
    }
}

/// A CPU's entry as it is laid out.
#[derive(Clone, Copy, Debug, PartialEq, Eq)]
pub struct CpuEntry {
    pub present: bool,
    pub tree: u16,
    pub start: u8,
    pub count: u16,
    pub zero: u32,
}

impl CpuEntry {
    pub const ABSENT: CpuEntry = CpuEntry {
        present: false,
        tree: 0,
        start: 0,
        count: 0,
        zero: 0,
    };

    pub fn split(bits: u64) -> Self {
        let mut fields = Splitter::new(bits, 64);
        CpuEntry {
            present: fields.next(1) == 1,
            tree: fields.next(11) as u16,
            start: fields.next(5) as u8,
            count: fields.next(15) as u16,
            zero: fields.next(32) as u32,
        }
    }

    pub fn join(self) -> u64 {
        join(&[
            (1, self.present.into()),
            (11, self.tree.into()),
            (5, self.start.into()),
            (15, self.count.into()),
            (32, self.zero.into()),
        ])
    }
}

/// A well-formed present CPU entry: a tree held by a CPU.
#[derive(Clone, Copy, Debug, PartialEq, Eq)]
pub struct Reservation {
    pub tree: usize,
    /// The child the next search starts from.
    pub start: usize,
    pub count: usize,
}

impl From<Reservation> for CpuEntry {
    fn from(held: Reservation) -> Self {
        CpuEntry {
            present: true,
            tree: held.tree as u16,
            start: held.start as u8,
            count: held.count as u16,
            zero: 0,
        }
    }
}
