//! Taking, step by step.

use crate::answer::{Answer, Refusal};
use crate::fault::Fault;
use crate::layout::{
    Child, CpuEntry, Reservation, Run, CHILD_FRAMES, CHILD_WORDS, TREE_CHILDREN, TREE_FRAMES,
    WORD_FRAMES,
};
use crate::operation::{Operation, Order};
use crate::zone::{looked, stored, Step, Store, Zone};

/// Trees of an aligned block.
const BLOCK: usize = 32;
/// Counts below this are of class allocated.
const PARTIAL_FROM: usize = 2_048;
/// Counts above this are of class free.
const PARTIAL_TO: usize = 14_336;

/// A get under way.
#[derive(Clone, Copy, Debug, PartialEq, Eq)]
pub struct Get {
    pub cpu: usize,
    pub order: Order,
    /// The tree of the entry the get started with, if it was present.
    pub own: Option<usize>,
    /// The number of the next place to try.
    pub place: usize,
    pub stage: Stage,
}

/// What a get's next step does.
#[derive(Clone, Copy, Debug, PartialEq, Eq)]
pub enum Stage {
    /// Looks at the own entry, and claims.
    Look,
    /// Takes the tree's count in hand.
    TakeCount { tree: usize },
    /// Puts the hand into the own entry, if it still holds the tree.
    FillEntry { tree: usize, hand: usize },
    /// Returns the hand to the tree's count, keeping r.
    ReturnHand { tree: usize, hand: usize },
    /// Looks at the own entry again: claims, or releases.
    LookAgain { tree: usize },
    /// Makes the own entry absent, if it still holds the tree.
    ReleaseEntry { tree: usize },
    /// Adds the hand to the tree's count and clears r.
    ReleaseTree { tree: usize, hand: usize },
    /// Tries the next place.
    TryPlace,
    /// Takes the count of a stolen tree in hand.
    StealCount { tree: usize, hand: usize },
    /// Returns a hand that came short, and clears r.
    StealReturn { tree: usize, hand: usize },
    /// Writes the own entry and claims.
    WriteEntry { tree: usize, hand: usize },
    /// Searches a child.
    SearchChild(Search),
    /// Searches a word of a child whose count was lowered.
    SearchWord { search: Search, word: usize },
    /// Gives a child's count back.
    GiveBack(Search),
    /// Gives the claim of a failed search to the tree's count.
    ReturnClaim { tree: usize },
    /// Writes the start child, if the own entry still holds the tree.
    KeepStart { frame: u64 },
}

/// Where a search stands.
#[derive(Clone, Copy, Debug, PartialEq, Eq)]
pub struct Search {
    pub tree: usize,
    /// The child it started from.
    pub start: usize,
    /// Children searched before this one.
    pub tried: usize,
}

/// A place of the passes.
#[derive(Clone, Copy, Debug, PartialEq, Eq)]
pub enum Place {
    Tree { tree: usize, pass: Pass },
    Cpu(usize),
}

#[derive(Clone, Copy, Debug, PartialEq, Eq)]
pub enum Pass {
    Near,
    Partial,
    Free,
    Any,
}

#[derive(Clone, Copy, Debug, PartialEq, Eq)]
pub enum Class {
    Allocated,
    Partial,
    Free,
}

impl Get {
    pub fn new(cpu: usize, order: Order) -> Self {
        Get {
            cpu,
            order,
            own: None,
            place: 0,
            stage: Stage::Look,
        }
    }

    fn at(self, stage: Stage) -> Answer<Operation> {
        Answer::UnderWay(Operation::Get(Get { stage, ..self }))
    }

    fn size(&self) -> usize {
        self.order.size()
    }
}

/// The k-th number from `first` on, leaving out `skipped`.
fn other(first: usize, k: usize, skipped: usize) -> usize {
    let number = first + k;
    if number < skipped {
        number
    } else {
        number + 1
    }
}

/// Whether a present entry holds the tree.
fn holding(entry: Option<Reservation>, tree: usize) -> Option<Reservation> {
    entry.filter(|held| held.tree == tree)
}

// The record's ranges.
impl Zone {
    pub fn get_in_range(&self, get: &Get) -> bool {
        get.cpu < self.cpus.len()
            && get.own.is_none_or(|tree| tree < self.trees.len())
            && get.place <= self.places(get)
            && self.stage_in_range(get)
    }

    fn stage_in_range(&self, get: &Get) -> bool {
        match get.stage {
            Stage::Look | Stage::TryPlace => true,
            Stage::TakeCount { tree }
            | Stage::LookAgain { tree }
            | Stage::ReleaseEntry { tree }
            | Stage::ReturnClaim { tree } => tree < self.trees.len(),
            Stage::FillEntry { tree, hand }
            | Stage::ReturnHand { tree, hand }
            | Stage::ReleaseTree { tree, hand }
            | Stage::StealCount { tree, hand }
            | Stage::StealReturn { tree, hand } => self.hand_in_range(tree, hand),
            Stage::WriteEntry { tree, hand } => {
                let short = self.has(Fault::ShortHandRange) && hand < get.size();
                self.hand_in_range(tree, hand) && !short
            }
            Stage::SearchChild(search) => self.search_in_range(search),
            Stage::SearchWord { search, word } => {
                let past = usize::from(self.has(Fault::WordRange));
                self.words_in_range(get, search) && word < CHILD_WORDS + past
            }
            Stage::GiveBack(search) => self.words_in_range(get, search),
            Stage::KeepStart { frame } => {
                (frame < self.frames() || self.has(Fault::FrameRange))
                    && !get.order.misaligned(frame)
            }
        }
    }

    fn hand_in_range(&self, tree: usize, hand: usize) -> bool {
        tree < self.trees.len() && (hand <= self.capacity(tree) || self.has(Fault::HandRange))
    }

    fn search_in_range(&self, search: Search) -> bool {
        let past = usize::from(self.has(Fault::StartRange));
        search.tree < self.trees.len()
            && search.start < self.width(search.tree) + past
            && search.tried < self.width(search.tree)
    }

    /// Words are searched only for what lies in one.
    fn words_in_range(&self, get: &Get, search: Search) -> bool {
        self.search_in_range(search) && !get.order.is_huge()
    }
}

// The places of the passes, in their order.
impl Zone {
    /// Trees of the near pass: the block's first tree and how many to try.
    fn near(&self, get: &Get) -> (usize, usize) {
        let Some(own) = get.own else { return (0, 0) };
        let first = own / BLOCK * BLOCK;
        let block = self.trees.len().saturating_sub(first).min(BLOCK);
        match self.fault {
            Some(Fault::NearMissing) => (first, 0),
            Some(Fault::NearKeepsOwn) => (first, block),
            _ => (first, block - 1),
        }
    }

    /// How many places a get has.
    fn places(&self, get: &Get) -> usize {
        let all = self.near(get).1 + 3 * self.trees.len() + self.cpus.len() - 1;
        match self.fault {
            Some(Fault::PlaceTwice | Fault::StealFromOwn) => all + 1,
            Some(Fault::NoRoomEarly) => all - 1,
            _ => all,
        }
    }

    /// The get's next place; none after the last.
    fn place(&self, get: &Get) -> Option<Place> {
        if get.place >= self.places(get) {
            return None;
        }
        let trees = self.trees.len();
        let mut place = get.place;
        let (first, near) = self.near(get);
        if place < near {
            return Some(self.near_place(get, first, place));
        }
        place -= near;
        if self.has(Fault::PlaceTwice) && place > 2 * trees {
            place -= 1;
        }
        for pass in self.passes() {
            if place < trees {
                return Some(Place::Tree { tree: place, pass });
            }
            place -= trees;
        }
        if self.has(Fault::StealDescending) {
            place = self.cpus.len() - 2 - place;
        }
        Some(Place::Cpu(if self.has(Fault::StealFromOwn) {
            place
        } else {
            other(0, place, get.cpu)
        }))
    }

    fn near_place(&self, get: &Get, first: usize, k: usize) -> Place {
        let tree = match get.own {
            Some(own) if !self.has(Fault::NearKeepsOwn) => other(first, k, own),
            _ => first + k,
        };
        let pass = Pass::Near;
        Place::Tree { tree, pass }
    }

    fn passes(&self) -> [Pass; 3] {
        if self.has(Fault::FreeBeforePartial) {
            [Pass::Free, Pass::Partial, Pass::Any]
        } else {
            [Pass::Partial, Pass::Free, Pass::Any]
        }
    }

    pub fn class(&self, tree: usize, count: usize) -> Class {
        let (from, to) = self.class_edges(tree);
        if count < from {
            Class::Allocated
        } else if count > to {
            Class::Free
        } else {
            Class::Partial
        }
    }

    /// The least and the greatest partial count.
    fn class_edges(&self, tree: usize) -> (usize, usize) {
        let capacity = self.capacity(tree);
        match self.fault {
            Some(Fault::ClassLowDown) => (PARTIAL_FROM - 1, PARTIAL_TO),
            Some(Fault::ClassLowUp) => (PARTIAL_FROM + 1, PARTIAL_TO),
            Some(Fault::ClassHighDown) => (PARTIAL_FROM, PARTIAL_TO - 1),
            Some(Fault::ClassHighUp) => (PARTIAL_FROM, PARTIAL_TO + 1),
            Some(Fault::ClassByShare) => (capacity / 8, capacity / 8 * 7),
            _ => (PARTIAL_FROM, PARTIAL_TO),
        }
    }

    fn fits(&self, pass: Pass, class: Class) -> bool {
        match pass {
            Pass::Near => class != Class::Allocated || self.has(Fault::NearTakesAllocated),
            Pass::Partial => class == Class::Partial,
            Pass::Free => class == Class::Free,
            Pass::Any => class == Class::Allocated || !self.has(Fault::AnyOnlyAllocated),
        }
    }
}

// The steps.
impl Zone {
    pub fn get_step(&self, get: Get) -> Step<Operation> {
        match get.stage {
            Stage::Look => self.look(get),
            Stage::TakeCount { tree } => self.take_count(get, tree),
            Stage::FillEntry { tree, hand } => self.fill_entry(get, tree, hand),
            Stage::ReturnHand { tree, hand } => self.return_hand(get, tree, hand),
            Stage::LookAgain { tree } => self.look_again(get, tree),
            Stage::ReleaseEntry { tree } => self.release_entry(get, tree),
            Stage::ReleaseTree { tree, hand } => self.release_tree(get, tree, hand),
            Stage::TryPlace => self.try_place(get),
            Stage::StealCount { tree, hand } => self.steal_count(get, tree, hand),
            Stage::StealReturn { tree, hand } => self.steal_return(get, tree, hand),
            Stage::WriteEntry { tree, hand } => self.write_entry(get, tree, hand),
            Stage::SearchChild(search) => self.search_child(get, search),
            Stage::SearchWord { search, word } => self.search_word(get, search, word),
            Stage::GiveBack(search) => self.give_back(get, search),
            Stage::ReturnClaim { tree } => self.return_claim(get, tree),
            Stage::KeepStart { frame } => self.keep_start(get, frame),
        }
    }

    fn look(&self, get: Get) -> Step<Operation> {
        let Some(held) = self.cpu(get.cpu)? else {
            return looked(get.at(Stage::TryPlace));
        };
        let tree = held.tree;
        let get = Get {
            own: Some(tree),
            ..get
        };
        if self.claimable(&get, held) {
            self.claim(get, held)
        } else if self.has(Fault::SyncMissing) {
            looked(get.at(Stage::ReleaseEntry { tree }))
        } else {
            looked(get.at(Stage::TakeCount { tree }))
        }
    }

    fn claimable(&self, get: &Get, held: Reservation) -> bool {
        held.count > get.size() || (held.count == get.size() && !self.has(Fault::ClaimStrict))
    }

    /// What a claim lowers the own entry by: s, but for a fault.
    fn claimed(&self, get: &Get) -> usize {
        if self.has(Fault::TreeClaimOne) && !get.order.is_huge() {
            1
        } else {
            get.size()
        }
    }

    /// Lowers the own entry by s; the search starts from its start child.
    fn claim(&self, get: Get, held: Reservation) -> Step<Operation> {
        let search = Search {
            tree: held.tree,
            start: held.start,
            tried: 0,
        };
        let lowered = Reservation {
            count: held.count - self.claimed(&get),
            ..held
        };
        stored(
            Store::Cpu(get.cpu, lowered.into()),
            get.at(Stage::SearchChild(search)),
        )
    }

    fn take_count(&self, get: Get, tree: usize) -> Step<Operation> {
        let entry = self.tree(tree)?;
        let hand = entry.count.into();
        let next = get.at(Stage::FillEntry { tree, hand });
        self.tree_store(tree, entry.reserved, 0, next)
    }

    fn fill_entry(&self, get: Get, tree: usize, hand: usize) -> Step<Operation> {
        let Some(held) = self.holding_unless(Fault::FillOther, get.cpu, tree)? else {
            return looked(get.at(Stage::ReturnHand { tree, hand }));
        };
        let filled = Reservation {
            count: held.count + hand,
            ..held
        };
        stored(
            Store::Cpu(get.cpu, filled.into()),
            get.at(if self.has(Fault::SyncNoLook) {
                Stage::ReleaseEntry { tree }
            } else {
                Stage::LookAgain { tree }
            }),
        )
    }

    fn return_hand(&self, get: Get, tree: usize, hand: usize) -> Step<Operation> {
        let entry = self.tree(tree)?;
        let count = usize::from(entry.count) + hand;
        let next = get.at(Stage::LookAgain { tree });
        let reserved = entry.reserved && !self.has(Fault::HandClearsReserved);
        self.tree_store(tree, reserved, count, next)
    }

    fn look_again(&self, get: Get, tree: usize) -> Step<Operation> {
        match self.holding_unless(Fault::ClaimOther, get.cpu, tree)? {
            Some(held) if self.claimable(&get, held) => self.claim(get, held),
            _ => self.release_entry(get, tree),
        }
    }

    fn release_entry(&self, get: Get, tree: usize) -> Step<Operation> {
        let Some(held) = self.holding_unless(Fault::ReleaseOther, get.cpu, tree)? else {
            return looked(get.at(Stage::TryPlace));
        };
        let hand = held.count;
        stored(
            Store::Cpu(get.cpu, CpuEntry::ABSENT),
            get.at(Stage::ReleaseTree { tree, hand }),
        )
    }

    fn release_tree(&self, get: Get, tree: usize, hand: usize) -> Step<Operation> {
        let entry = self.tree(tree)?;
        let reserved = entry.reserved && self.has(Fault::ReleaseKeepsReserved);
        let count = usize::from(entry.count) + hand;
        self.tree_store(tree, reserved, count, get.at(Stage::TryPlace))
    }

    fn try_place(&self, get: Get) -> Step<Operation> {
        let place = self.place(&get).ok_or(Refusal::NoRoom)?;
        let get = Get {
            place: get.place + 1,
            ..get
        };
        match place {
            Place::Tree { tree, pass } => self.try_tree(get, tree, pass),
            Place::Cpu(cpu) => self.try_steal(get, cpu),
        }
    }

    fn try_tree(&self, get: Get, tree: usize, pass: Pass) -> Step<Operation> {
        let entry = self.tree(tree)?;
        let hand = usize::from(entry.count);
        let enough = hand > get.size() || (hand == get.size() && !self.has(Fault::FitStrict));
        if entry.reserved || !enough || !self.fits(pass, self.class(tree, hand)) {
            return looked(get.at(Stage::TryPlace));
        }
        let next = get.at(Stage::WriteEntry { tree, hand });
        self.tree_store(tree, true, 0, next)
    }

    fn try_steal(&self, get: Get, cpu: usize) -> Step<Operation> {
        let Some(held) = self.cpu(cpu)? else {
            return looked(get.at(Stage::TryPlace));
        };
        let (tree, hand) = (held.tree, held.count);
        stored(
            Store::Cpu(cpu, CpuEntry::ABSENT),
            get.at(Stage::StealCount { tree, hand }),
        )
    }

    fn steal_count(&self, get: Get, tree: usize, hand: usize) -> Step<Operation> {
        let entry = self.tree(tree)?;
        let (hand, left) = if self.has(Fault::StealForgetsTree) {
            (hand, entry.count.into())
        } else {
            (hand + usize::from(entry.count), 0)
        };
        if hand > self.capacity(tree) && !self.has(Fault::StealUnchecked) {
            return Err(Refusal::Damaged);
        }
        let enough = hand > get.size() || (hand == get.size() && !self.has(Fault::StealStrict));
        let next = get.at(if enough {
            Stage::WriteEntry { tree, hand }
        } else {
            Stage::StealReturn { tree, hand }
        });
        self.tree_store(tree, entry.reserved, left, next)
    }

    fn steal_return(&self, get: Get, tree: usize, hand: usize) -> Step<Operation> {
        let entry = self.tree(tree)?;
        let reserved = entry.reserved && self.has(Fault::StealReturnKeepsReserved);
        let count = usize::from(entry.count) + hand;
        self.tree_store(tree, reserved, count, get.at(Stage::TryPlace))
    }

    fn write_entry(&self, get: Get, tree: usize, hand: usize) -> Step<Operation> {
        if !self.has(Fault::WriteUnread) {
            self.cpu(get.cpu)?;
        }
        let held = Reservation {
            tree,
            start: 0,
            count: hand
                .checked_sub(self.claimed(&get))
                .ok_or(Refusal::Damaged)?,
        };
        let search = Search {
            tree,
            start: 0,
            tried: 0,
        };
        stored(
            Store::Cpu(get.cpu, held.into()),
            get.at(Stage::SearchChild(search)),
        )
    }

    /// The huge frame a search stands at.
    fn searched(&self, search: Search) -> usize {
        let (child, width) = (search.start + search.tried, self.width(search.tree));
        let round = if child < width { child } else { child - width };
        search.tree * TREE_CHILDREN + round
    }

    fn search_child(&self, get: Get, search: Search) -> Step<Operation> {
        let huge = self.searched(search);
        let child = self.child(huge)?;
        let fits = !child.a && usize::from(child.count) >= get.size();
        if !fits {
            return looked(get.at(self.next_child(search)));
        }
        if get.order.is_huge() {
            let frame = (huge * CHILD_FRAMES) as u64;
            let next = get.at(Stage::KeepStart { frame });
            return stored(Store::Child(huge, Child::TAKEN), next);
        }
        let next = get.at(Stage::SearchWord { search, word: 0 });
        let count = child.count - self.lowered(&get) as u16;
        stored(Store::Child(huge, Child { count, ..child }), next)
    }

    /// What a search lowers a child's count by: s, but for a fault.
    fn lowered(&self, get: &Get) -> usize {
        match self.fault {
            Some(Fault::BitBeforeCount) => 0,
            Some(Fault::ChildClaimOne) => 1,
            _ => get.size(),
        }
    }

    /// The stage after a child without success.
    fn next_child(&self, search: Search) -> Stage {
        let Search { tree, start, tried } = search;
        let tried = tried + 1;
        let children = if self.has(Fault::SearchStopsAtEnd) {
            self.width(tree) - start
        } else {
            self.width(tree)
        };
        if tried < children {
            Stage::SearchChild(Search { tree, start, tried })
        } else {
            Stage::ReturnClaim { tree }
        }
    }

    fn search_word(&self, get: Get, search: Search, word: usize) -> Step<Operation> {
        let index = self.searched(search) * CHILD_WORDS + word.min(CHILD_WORDS - 1);
        let size = get.size();
        match self.fitting(index, size) {
            Some(bit) => {
                let frame = (index * WORD_FRAMES + bit) as u64;
                let taken = self.words[index].set(Run { bit, size });
                stored(
                    Store::Word(index, taken),
                    get.at(Stage::KeepStart { frame }),
                )
            }
            None if word + 1 < CHILD_WORDS => {
                let word = word + 1;
                looked(get.at(Stage::SearchWord { search, word }))
            }
            None => looked(get.at(Stage::GiveBack(search))),
        }
    }

    /// The first bit of a word's lowest fitting run.
    fn fitting(&self, index: usize, size: usize) -> Option<usize> {
        let word = self.words[index];
        let mut runs = word.free_runs(size);
        match self.fault {
            Some(Fault::HighestBit) => runs.next_back(),
            Some(Fault::SecondRun) if size > 1 => {
                let lowest = runs.next();
                runs.next().or(lowest)
            }
            Some(Fault::RunUnaligned) => {
                (0..=WORD_FRAMES - size).find(|&bit| word.free(Run { bit, size }))
            }
            Some(Fault::RunAcross) => runs.next().or_else(|| self.across(index, size)),
            _ => runs.next(),
        }
    }

    /// The first bit of a run half in a word and half in the child's next one, for a fault.
    fn across(&self, index: usize, size: usize) -> Option<usize> {
        let size = size / 2;
        let bit = WORD_FRAMES - size;
        let next = index + 1;
        let free = size > 0
            && !next.is_multiple_of(CHILD_WORDS)
            && self.words[index].free(Run { bit, size })
            && self.words[next].free(Run { bit: 0, size });
        free.then_some(bit)
    }

    fn give_back(&self, get: Get, search: Search) -> Step<Operation> {
        let huge = self.searched(search);
        if self.has(Fault::GiveBackMissing) {
            return looked(get.at(self.next_child(search)));
        }
        let size = if self.has(Fault::GiveBackOne) {
            1
        } else {
            get.size()
        };
        let child = self.child(huge)?;
        let raised = Child {
            count: child.count + size as u16,
            ..child
        };
        stored(Store::Child(huge, raised), get.at(self.next_child(search)))
    }

    fn return_claim(&self, get: Get, tree: usize) -> Step<Operation> {
        let entry = self.tree(tree)?;
        let claim = if self.has(Fault::FailedClaimLost) {
            0
        } else {
            get.size()
        };
        let skipped = usize::from(self.has(Fault::PlaceSkipped));
        let get = Get {
            place: (get.place + skipped).min(self.places(&get)),
            ..get
        };
        let count = usize::from(entry.count) + claim;
        let next = get.at(Stage::ReleaseEntry { tree });
        if self.has(Fault::ClaimToEntry) {
            if let Some(held) = holding(self.cpu(get.cpu)?, tree) {
                let count = held.count + claim;
                let raised = Reservation { count, ..held };
                return stored(Store::Cpu(get.cpu, raised.into()), next);
            }
        }
        self.tree_store(tree, entry.reserved, count, next)
    }

    fn keep_start(&self, get: Get, frame: u64) -> Step<Operation> {
        let tree = frame as usize / TREE_FRAMES;
        let start = frame as usize / CHILD_FRAMES % TREE_CHILDREN;
        if self.has(Fault::BitBeforeCount) && !get.order.is_huge() {
            return self.lower_late(&get, frame);
        }
        match self.holding_unless(Fault::StartOther, get.cpu, tree)? {
            Some(held) if !self.has(Fault::StartNotKept) => {
                let kept = Reservation { start, ..held };
                stored(Store::Cpu(get.cpu, kept.into()), Answer::Done(frame))
            }
            _ => looked(Answer::Done(frame)),
        }
    }

    /// The child's count lowered by the last step, for a fault.
    fn lower_late(&self, get: &Get, frame: u64) -> Step<Operation> {
        let huge = frame as usize / CHILD_FRAMES;
        let child = self.child(huge)?;
        let count = child.count.saturating_sub(get.size() as u16);
        stored(
            Store::Child(huge, Child { count, ..child }),
            Answer::Done(frame),
        )
    }

    /// The own entry, if it holds the tree; with the fault, whatever it holds.
    fn holding_unless(
        &self,
        fault: Fault,
        cpu: usize,
        tree: usize,
    ) -> Result<Option<Reservation>, Refusal> {
        let entry = self.cpu(cpu)?;
        Ok(if self.has(fault) {
            entry
        } else {
            holding(entry, tree)
        })
    }
}
