//! The zone: decoded tables, the checks every call makes, and single stores.

use crate::answer::{Answer, Refusal};
use crate::fault::Fault;
use crate::layout::{
    Child, CpuEntry, Header, Reservation, Tree, Word, CHILD_FRAMES, CHILD_WORDS, MAX_CPUS, RUNNING,
    TREE_CHILDREN,
};

/// The five tables of a zone, decoded.
///
/// Lengths are as lent, right or wrong; entries may be malformed.
#[derive(Clone, Debug, PartialEq, Eq)]
pub struct Zone {
    pub header: Vec<Header>,
    pub words: Vec<Word>,
    pub children: Vec<Child>,
    pub trees: Vec<Tree>,
    pub cpus: Vec<CpuEntry>,
    pub fault: Option<Fault>,
}

/// The one store a step may make.
#[derive(Clone, Copy, Debug, PartialEq, Eq)]
pub enum Store {
    Header(Header),
    Word(usize, Word),
    Child(usize, Child),
    Tree(usize, Tree),
    Cpu(usize, CpuEntry),
}

/// A step that was not refused: what it stores and what it answers.
#[derive(Clone, Copy, Debug, PartialEq, Eq)]
pub struct Made<R> {
    pub store: Option<Store>,
    pub answer: Answer<R>,
}

pub type Step<R> = Result<Made<R>, Refusal>;

/// A step that only looks.
pub fn looked<R>(answer: Answer<R>) -> Step<R> {
    Ok(Made {
        store: None,
        answer,
    })
}

/// A step that stores.
pub fn stored<R>(store: Store, answer: Answer<R>) -> Step<R> {
    Ok(Made {
        store: Some(store),
        answer,
    })
}

/// Trees of a zone of `n` huge frames.
pub fn trees_for(n: usize) -> usize {
    n.div_ceil(TREE_CHILDREN)
}

impl Zone {
    /// A zone with tables of the right lengths, nothing created in them.
    pub fn blank(n: usize, cpus: usize) -> Self {
        Zone {
            header: vec![Header::split(0)],
            words: vec![Word(0); n * CHILD_WORDS],
            children: vec![Child::split(0); n],
            trees: vec![Tree::split(0); trees_for(n)],
            cpus: vec![CpuEntry::ABSENT; cpus],
            fault: None,
        }
    }

    pub fn has(&self, fault: Fault) -> bool {
        self.fault == Some(fault)
    }

    /// Makes a step's store, unless it was refused or its entry is unsound.
    pub fn settle<R>(&mut self, step: Step<R>) -> Answer<R> {
        let Made { store, answer } = match step {
            Ok(made) => made,
            Err(refusal) => return Answer::Refused(refusal),
        };
        if let Some(store) = store {
            if !self.sound(&store) {
                if self.has(Fault::RefusedStores) && matches!(store, Store::Child(..)) {
                    self.apply(store);
                }
                return Answer::Refused(Refusal::Damaged);
            }
            self.apply(store);
        }
        answer
    }

    /// Whether an entry to be stored keeps its layout.
    fn sound(&self, store: &Store) -> bool {
        match *store {
            Store::Child(_, child) => child.well_formed(),
            Store::Tree(tree, entry) => entry.well_formed(self.capacity(tree)),
            Store::Cpu(_, entry) => self.reservation(entry).is_ok(),
            Store::Header(_) | Store::Word(..) => true,
        }
    }

    fn apply(&mut self, store: Store) {
        match store {
            Store::Header(header) => self.header[0] = header,
            Store::Word(index, word) => self.words[index] = word,
            Store::Child(index, child) => self.children[index] = child,
            Store::Tree(index, tree) => self.trees[index] = tree,
            Store::Cpu(index, entry) => self.cpus[index] = entry,
        }
    }

    /// The header: 8 for a wrong length, then 9 for a malformed entry.
    pub fn checked_header(&self) -> Result<Header, Refusal> {
        match self.header[..] {
            [header] if self.header_let_in(header) => Ok(header),
            [_] => Err(Refusal::NotAZone),
            [header, ..] if self.has(Fault::HeaderLengthLate) && !header.well_formed() => {
                Err(Refusal::NotAZone)
            }
            _ => Err(Refusal::BadBuffers),
        }
    }

    fn header_let_in(&self, header: Header) -> bool {
        let zero = if self.has(Fault::HeaderLetThrough) {
            0
        } else {
            header.zero
        };
        Header { zero, ..header }.well_formed()
    }

    /// The checks of a running zone, in their order: 9, 10, 8.
    pub fn check_running(&self) -> Result<(), Refusal> {
        let header = self.checked_header()?;
        if header.marker != RUNNING {
            return Err(Refusal::Closed);
        }
        self.check_lengths(header.n as usize)
    }

    /// 8 unless every table has its length for `n` huge frames.
    pub fn check_lengths(&self, n: usize) -> Result<(), Refusal> {
        let right = self.header.len() == 1
            && self.words.len() == n * CHILD_WORDS
            && self.children.len() == n
            && self.trees.len() == trees_for(n)
            && (1..=MAX_CPUS).contains(&self.cpus.len());
        if right {
            Ok(())
        } else {
            Err(Refusal::BadBuffers)
        }
    }

    /// Base frames of the zone.
    pub fn frames(&self) -> u64 {
        (self.children.len() * CHILD_FRAMES) as u64
    }

    /// Children of a tree.
    pub fn width(&self, tree: usize) -> usize {
        let first = tree * TREE_CHILDREN;
        self.children.len().saturating_sub(first).min(TREE_CHILDREN)
    }

    pub fn capacity(&self, tree: usize) -> usize {
        self.width(tree) * CHILD_FRAMES
    }

    pub fn child(&self, huge: usize) -> Result<Child, Refusal> {
        let mut child = self.children[huge];
        if self.has(Fault::ChildLetThrough) {
            child.zero = 0;
        }
        if child.well_formed() {
            Ok(child)
        } else {
            Err(Refusal::Damaged)
        }
    }

    pub fn tree(&self, tree: usize) -> Result<Tree, Refusal> {
        let entry = self.trees[tree];
        if entry.well_formed(self.capacity(tree)) || self.has(Fault::TreeLetThrough) {
            Ok(entry)
        } else {
            Err(Refusal::Damaged)
        }
    }

    /// A CPU's entry: the tree it holds, or none.
    pub fn cpu(&self, cpu: usize) -> Result<Option<Reservation>, Refusal> {
        self.reservation(self.cpus[cpu])
    }

    fn reservation(&self, entry: CpuEntry) -> Result<Option<Reservation>, Refusal> {
        if entry == CpuEntry::ABSENT || (!entry.present && self.has(Fault::AbsentLetThrough)) {
            return Ok(None);
        }
        let held = Reservation {
            tree: entry.tree.into(),
            start: entry.start.into(),
            count: entry.count.into(),
        };
        let well_formed = entry.present
            && (entry.zero == 0 || self.has(Fault::CpuLetThrough))
            && held.tree < self.trees.len()
            && (held.start < self.width(held.tree) || self.has(Fault::StartLetThrough))
            && held.count <= self.capacity(held.tree);
        if well_formed {
            Ok(Some(held))
        } else {
            Err(Refusal::Damaged)
        }
    }

    /// A child's bit field.
    pub fn field(&self, huge: usize) -> &[Word] {
        &self.words[huge * CHILD_WORDS..][..CHILD_WORDS]
    }

    /// Zero bits of a child's bit field.
    pub fn zeros(&self, huge: usize) -> usize {
        self.field(huge).iter().map(|word| word.zeros()).sum()
    }

    /// The huge frames of a tree.
    pub fn children_of(&self, tree: usize) -> std::ops::Range<usize> {
        let first = tree * TREE_CHILDREN;
        first..first + self.width(tree)
    }

    /// A change of a tree's count; `reserved` as given.
    pub fn tree_store<R>(
        &self,
        tree: usize,
        reserved: bool,
        count: usize,
        answer: Answer<R>,
    ) -> Step<R> {
        let entry = Tree {
            reserved,
            count: count as u16,
        };
        stored(Store::Tree(tree, entry), answer)
    }
}
