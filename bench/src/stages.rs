//! One fixed record and zone for each stage of a get and put.

use crate::memory::Memory;
use crate::plain::{Giving, Order, Place, Record, Search, Taking, codec};

/// The CPUs of every zone; the steps are those of CPU 0.
pub const CPUS: usize = 8;
/// The child of the tree that a stage is about.
const CHILD: u8 = 3;
const FLAG: u16 = 0x8000;

/// The tree that stages are about, and another one near it.
#[derive(Clone, Copy, Debug, PartialEq, Eq)]
pub struct At {
    tree: u16,
    near: u16,
}

impl At {
    /// The first tree of a zone.
    pub fn first() -> Self {
        At { tree: 0, near: 1 }
    }

    /// The last tree of a zone of `n` huge frames, at least two trees.
    pub fn last(n: u64) -> Self {
        let tree = (n.div_ceil(32) - 1) as u16;
        At {
            tree,
            near: tree - 1,
        }
    }

    fn huge(self) -> usize {
        usize::from(self.tree) * 32 + usize::from(CHILD)
    }

    fn frame(self) -> u32 {
        self.huge() as u32 * 512
    }
}

/// A stage, and the entries of the zone that it meets.
pub struct Stage {
    pub name: &'static str,
    pub record: Record,
    at: At,
    meets: Meets,
}

/// The entries that differ from those of a created zone.
#[derive(Clone, Copy)]
enum Meets {
    Nothing,
    Held(usize, u16),
    Tree(u16),
    Child(u16),
    Word(u64),
}

/// An entry that a step has changed, as it was before.
#[derive(Clone, Copy, Debug)]
pub enum Touched {
    Nothing,
    Word(usize, u64),
    Child(usize, u16),
    Tree(usize, u16),
    Cpu(usize, u64),
}

impl Stage {
    pub fn words(&self) -> [u64; 2] {
        codec::encode(self.record)
    }

    /// Puts the stage's entries into a created zone.
    pub fn prepare(&self, memory: &mut Memory) {
        let (tree, huge) = (self.at.tree, self.at.huge());
        let zone = memory.library();
        match self.meets {
            Meets::Nothing => {}
            Meets::Held(cpu, count) => {
                zone.cpus[cpu] = 1 << 63 | u64::from(tree) << 52 | u64::from(count) << 32;
            }
            Meets::Tree(entry) => zone.trees[usize::from(tree)] = entry,
            Meets::Child(entry) => zone.children[huge] = entry,
            Meets::Word(word) => zone.words[huge * 8] = word,
        }
    }

    /// The entry that one step changes. The step must not be refused, but for No room.
    pub fn touched(&self, memory: &mut Memory) -> Touched {
        let mut after = memory.clone();
        let number = after.plain().step(self.record).number();
        assert!(number < 3, "{} is answered {number}", self.name);
        let (before, after) = (memory.library(), after.library());
        let word = changed(before.words, after.words);
        let child = changed(before.children, after.children);
        let tree = changed(before.trees, after.trees);
        let cpu = changed(before.cpus, after.cpus);
        let word = word.map(|(at, entry)| Touched::Word(at, entry));
        let child = child.map(|(at, entry)| Touched::Child(at, entry));
        let tree = tree.map(|(at, entry)| Touched::Tree(at, entry));
        let cpu = cpu.map(|(at, entry)| Touched::Cpu(at, entry));
        let found = word.or(child).or(tree).or(cpu);
        found.unwrap_or(Touched::Nothing)
    }
}

/// The first entry that differs, as it was before.
fn changed<E: Copy + PartialEq>(before: &[E], after: &[E]) -> Option<(usize, E)> {
    let at = before.iter().zip(after).position(|(old, new)| old != new)?;
    Some((at, before[at]))
}

/// Every stage in one tree, with the ways that it can go.
pub fn all(at: At) -> Vec<Stage> {
    let mut stages = Stages {
        at,
        list: Vec::new(),
    };
    stages.entries();
    stages.places();
    stages.searches();
    stages.puts();
    stages.list
}

/// The stages of one tree, as they are listed.
struct Stages {
    at: At,
    list: Vec<Stage>,
}

impl Stages {
    fn add(&mut self, name: &'static str, record: Record, meets: Meets) {
        let at = self.at;
        self.list.push(Stage {
            name,
            record,
            at,
            meets,
        });
    }

    fn get(&mut self, name: &'static str, order: Order, stage: Taking, meets: Meets) {
        let cpu = 0;
        self.add(name, Record::Get { cpu, order, stage }, meets);
    }

    fn base(&mut self, name: &'static str, stage: Taking, meets: Meets) {
        self.get(name, Order::BASE, stage, meets);
    }

    fn put(&mut self, name: &'static str, order: Order, stage: Giving, meets: Meets) {
        let cpu = 0;
        self.add(name, Record::Put { cpu, order, stage }, meets);
    }

    /// Rules 1 and 2.
    fn entries(&mut self) {
        let (tree, hand) = (self.at.tree, 500);
        let place = Place::Own { tree };
        let (take, fill) = (Taking::TakeCount { tree }, Taking::FillEntry { tree, hand });
        let give = Taking::ReturnHand { tree, hand };
        let (again, leave) = (
            Taking::LookAgain { tree },
            Taking::Unreserve { place, hand },
        );
        self.base("own: claims", Taking::Own, Meets::Held(0, 1_000));
        self.base("own: absent", Taking::Own, Meets::Nothing);
        self.base("own: short", Taking::Own, Meets::Held(0, 0));
        self.base("take count", take, Meets::Tree(FLAG | 500));
        self.base("fill entry", fill, Meets::Held(0, 0));
        self.base("return hand", give, Meets::Tree(FLAG));
        self.base("look again: claims", again, Meets::Held(0, 500));
        self.base("release", Taking::Release(place), Meets::Held(0, 3));
        self.base("unreserve", leave, Meets::Tree(FLAG));
    }

    /// Rules 3 and 4.
    fn places(&mut self) {
        let At { tree, near } = self.at;
        let (hand, from) = (500, 1);
        let near = Taking::Try(Place::Near { tree, base: near });
        let partial = Taking::Try(Place::Partial { tree });
        let place = Place::Free { tree };
        let count = Taking::StealCount { from, tree, hand };
        self.base("try: near, taken", near, Meets::Nothing);
        self.base("try: passed", partial, Meets::Nothing);
        self.base("try: free, taken", Taking::Try(place), Meets::Nothing);
        self.base("write", Taking::Write { place, hand }, Meets::Nothing);
        self.base("steal", Taking::Steal { from }, Meets::Held(1, 500));
        self.base("steal count", count, Meets::Tree(FLAG | 3));
        self.base("no room", Taking::NoRoom, Meets::Nothing);
    }

    /// Rules 5, 6 and 7.
    fn searches(&mut self) {
        let place = Place::Own { tree: self.at.tree };
        let search = Search {
            place,
            start: 0,
            child: CHILD,
        };
        let child = Taking::Child(search);
        let word = Taking::Word { search, word: 0 };
        let next = self.at.frame() + 512;
        let eight = Order::new(3).unwrap_or(Order::BASE);
        self.base("child, order 0", child, Meets::Nothing);
        self.base("child: passed", child, Meets::Child(0));
        self.get("child, order 9", Order::HUGE, child, Meets::Nothing);
        self.base("word, order 0", word, Meets::Word(0xffff_ffff));
        self.get("word, order 3", eight, word, Meets::Word(0xffff_ffff));
        self.base("word: full", word, Meets::Word(u64::MAX));
        self.base("give back", Taking::GiveBack(search), Meets::Child(7));
        self.base("last", Taking::Last { frame: next }, Meets::Held(0, 9));
        self.base("fail", Taking::Fail(place), Meets::Tree(FLAG));
    }

    fn puts(&mut self) {
        let frame = self.at.frame();
        let (clear, entry) = (Giving::Clear { frame }, Giving::ToEntry { frame });
        let (raise, tree) = (Giving::Raise { frame }, Giving::ToTree { frame });
        self.put("clear, order 0", Order::BASE, clear, Meets::Word(1));
        self.put("clear, order 9", Order::HUGE, clear, Meets::Child(FLAG));
        self.put("raise", Order::BASE, raise, Meets::Child(7));
        self.put("to entry: own", Order::BASE, entry, Meets::Held(0, 9));
        self.put("to entry: other", Order::BASE, entry, Meets::Nothing);
        self.put("to tree", Order::BASE, tree, Meets::Tree(FLAG | 9));
    }
}
