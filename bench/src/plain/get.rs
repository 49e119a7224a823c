//! The steps of a get.

use super::check::Shape;
use super::entries::{CHILD_FRAMES, Child, FLAG, Held, Tree, sum};
use super::places::{Place, steal};
use super::{Answer, Order, Record, Refusal, Search, Step, Tables, Taking};

/// The first bits of the aligned runs of orders 0 to 6.
const ALIGNED: [u64; 7] = [
    u64::MAX,
    0x5555_5555_5555_5555,
    0x1111_1111_1111_1111,
    0x0101_0101_0101_0101,
    0x0001_0001_0001_0001,
    0x0000_0001_0000_0001,
    1,
];

/// What a step goes by.
#[derive(Clone, Copy)]
struct Get {
    shape: Shape,
    cpu: u8,
    order: Order,
}

impl Get {
    #[inline(always)]
    fn at(self, stage: Taking) -> Step {
        let Get { cpu, order, .. } = self;
        Ok(Answer::UnderWay(Record::Get { cpu, order, stage }))
    }

    #[inline(always)]
    fn after(self, place: Place) -> Step {
        self.at(place.next(self.shape, self.cpu))
    }

    /// The stage after a child without success.
    #[inline(always)]
    fn next_child(self, search: Search) -> Step {
        let width = self.shape.width(search.place.tree());
        let next = search.child + 1;
        let child = if u16::from(next) < width { next } else { 0 };
        self.at(if child == search.start {
            Taking::Fail(search.place)
        } else {
            Taking::Child(Search { child, ..search })
        })
    }

    /// 11 unless a record may name the place.
    #[inline(always)]
    fn check_place(self, place: Place) -> Result<(), Refusal> {
        check(place.in_range(self.shape, self.cpu))
    }

    /// 11 unless a hand fits into its tree, which exists.
    #[inline(always)]
    fn check_hand(self, tree: u16, hand: u16) -> Result<(), Refusal> {
        check(tree < self.shape.trees && hand <= self.shape.capacity(tree))
    }

    #[inline(always)]
    fn check_steal(self, from: u8) -> Result<(), Refusal> {
        check(from < self.shape.cpus && from != self.cpu)
    }

    #[inline(always)]
    fn check_search(self, search: Search) -> Result<(), Refusal> {
        self.check_place(search.place)?;
        let width = self.shape.width(search.place.tree());
        check(u16::from(search.start) < width && u16::from(search.child) < width)
    }
}

/// 11 unless a number of a record is in its range.
#[inline(always)]
fn check(in_range: bool) -> Result<(), Refusal> {
    if in_range {
        Ok(())
    } else {
        Err(Refusal::BadRecord)
    }
}

/// Whether a block lies in the zone and is naturally aligned.
#[inline(always)]
pub fn block_in(shape: Shape, order: Order, frame: u32) -> bool {
    frame < shape.n * 512 && frame & u32::from(order.size() - 1) == 0
}

/// The first bit of a word's lowest free run.
#[inline(always)]
fn lowest(word: u64, order: Order) -> Option<u32> {
    let mut free = !word;
    for half in 0..order.number() {
        free &= free >> (1u32 << (half & 7));
    }
    free &= ALIGNED[usize::from(order.number() % 7)];
    (free != 0).then(|| free.trailing_zeros())
}

#[inline(always)]
fn huge(search: Search) -> usize {
    usize::from(search.place.tree()) * 32 + usize::from(search.child)
}

/// An entry of a table; a record that names none is refused.
#[inline(always)]
pub fn entry<T>(table: &mut [T], index: usize) -> Result<&mut T, Refusal> {
    table.get_mut(index).ok_or(Refusal::BadRecord)
}

impl Tables<'_> {
    #[inline(always)]
    pub(super) fn get_step(&mut self, shape: Shape, cpu: u8, order: Order, stage: Taking) -> Step {
        let get = Get { shape, cpu, order };
        check(cpu < shape.cpus)?;
        match stage {
            Taking::Own => self.own(get),
            Taking::TakeCount { tree } => self.take_count(get, tree),
            Taking::FillEntry { tree, hand } => self.fill_entry(get, tree, hand),
            Taking::ReturnHand { tree, hand } => self.return_hand(get, tree, hand),
            Taking::LookAgain { tree } => self.look_again(get, tree),
            Taking::Release(place) => self.release(get, place),
            Taking::Unreserve { place, hand } => self.unreserve(get, place, hand),
            Taking::Try(place) => self.try_tree(get, place),
            Taking::Write { place, hand } => self.write(get, place, hand),
            Taking::Steal { from } => self.steal(get, from),
            Taking::StealCount { from, tree, hand } => self.steal_count(get, from, tree, hand),
            Taking::Child(search) => self.child(get, search),
            Taking::Word { search, word } => self.word(get, search, word),
            Taking::GiveBack(search) => self.give_back(get, search),
            Taking::Last { frame } => self.last(get, frame),
            Taking::Fail(place) => self.fail(get, place),
            Taking::NoRoom => Err(Refusal::NoRoom),
        }
    }

    #[inline(always)]
    fn own(&mut self, get: Get) -> Step {
        let own = entry(self.cpus, get.cpu.into())?;
        match Held::split(*own, get.shape)? {
            None => get.at(Taking::Try(Place::Partial { tree: 0 })),
            Some(held) if held.count >= get.order.size() => claim(own, get, held),
            Some(held) => get.at(Taking::TakeCount { tree: held.tree }),
        }
    }

    #[inline(always)]
    fn take_count(&mut self, get: Get, tree: u16) -> Step {
        let stored = entry(self.trees, tree.into())?;
        let Tree { reserved, count } = Tree::split(*stored, get.shape.capacity(tree))?;
        *stored = reserved;
        get.at(Taking::FillEntry { tree, hand: count })
    }

    #[inline(always)]
    fn fill_entry(&mut self, get: Get, tree: u16, hand: u16) -> Step {
        get.check_hand(tree, hand)?;
        let own = entry(self.cpus, get.cpu.into())?;
        match Held::split(*own, get.shape)? {
            Some(held) if held.tree == tree => {
                let count = sum(held.count, hand, get.shape.capacity(tree))?;
                *own = Held { count, ..held }.join();
                get.at(Taking::LookAgain { tree })
            }
            _ => get.at(Taking::ReturnHand { tree, hand }),
        }
    }

    /// Adds to a tree's count; `kept` masks what is kept of r.
    #[inline(always)]
    fn add(&mut self, get: Get, tree: u16, amount: u16, kept: u16) -> Result<(), Refusal> {
        let capacity = get.shape.capacity(tree);
        let stored = entry(self.trees, tree.into())?;
        let Tree { reserved, count } = Tree::split(*stored, capacity)?;
        *stored = reserved & kept | sum(count, amount, capacity)?;
        Ok(())
    }

    #[inline(always)]
    fn return_hand(&mut self, get: Get, tree: u16, hand: u16) -> Step {
        get.check_hand(tree, hand)?;
        self.add(get, tree, hand, FLAG)?;
        get.at(Taking::LookAgain { tree })
    }

    #[inline(always)]
    fn look_again(&mut self, get: Get, tree: u16) -> Step {
        check(tree < get.shape.trees)?;
        let own = entry(self.cpus, get.cpu.into())?;
        match Held::split(*own, get.shape)? {
            Some(held) if held.tree == tree && held.count >= get.order.size() => {
                claim(own, get, held)
            }
            held => let_go(own, get, Place::Own { tree }, held),
        }
    }

    #[inline(always)]
    fn release(&mut self, get: Get, place: Place) -> Step {
        get.check_place(place)?;
        let own = entry(self.cpus, get.cpu.into())?;
        let held = Held::split(*own, get.shape)?;
        let_go(own, get, place, held)
    }

    #[inline(always)]
    fn unreserve(&mut self, get: Get, place: Place, hand: u16) -> Step {
        get.check_place(place)?;
        get.check_hand(place.tree(), hand)?;
        self.add(get, place.tree(), hand, 0)?;
        get.after(place)
    }

    #[inline(always)]
    fn try_tree(&mut self, get: Get, place: Place) -> Step {
        get.check_place(place)?;
        let tree = place.tree();
        let stored = entry(self.trees, tree.into())?;
        let Tree { reserved, count } = Tree::split(*stored, get.shape.capacity(tree))?;
        if reserved != 0 || count < get.order.size() || !place.fits(count) {
            return get.after(place);
        }
        *stored = FLAG;
        get.at(Taking::Write { place, hand: count })
    }

    #[inline(always)]
    fn write(&mut self, get: Get, place: Place, hand: u16) -> Step {
        get.check_place(place)?;
        get.check_hand(place.tree(), hand)?;
        let own = entry(self.cpus, get.cpu.into())?;
        Held::split(*own, get.shape)?;
        let count = hand.checked_sub(get.order.size()).ok_or(Refusal::Damaged)?;
        let (tree, start, child) = (place.tree(), 0, 0);
        *own = Held { tree, start, count }.join();
        get.at(Taking::Child(Search {
            place,
            start,
            child,
        }))
    }

    #[inline(always)]
    fn steal(&mut self, get: Get, from: u8) -> Step {
        get.check_steal(from)?;
        let other = entry(self.cpus, from.into())?;
        match Held::split(*other, get.shape)? {
            None => get.at(steal(get.shape, get.cpu, from + 1)),
            Some(Held { tree, count, .. }) => {
                *other = 0;
                let hand = count;
                get.at(Taking::StealCount { from, tree, hand })
            }
        }
    }

    #[inline(always)]
    fn steal_count(&mut self, get: Get, from: u8, tree: u16, hand: u16) -> Step {
        get.check_steal(from)?;
        get.check_hand(tree, hand)?;
        let capacity = get.shape.capacity(tree);
        let stored = entry(self.trees, tree.into())?;
        let Tree { reserved, count } = Tree::split(*stored, capacity)?;
        let hand = sum(hand, count, capacity)?;
        *stored = reserved;
        let place = Place::Stolen { tree, from };
        get.at(if hand >= get.order.size() {
            Taking::Write { place, hand }
        } else {
            Taking::Unreserve { place, hand }
        })
    }

    #[inline(always)]
    fn child(&mut self, get: Get, search: Search) -> Step {
        get.check_search(search)?;
        let huge = huge(search);
        let stored = entry(self.children, huge)?;
        match Child::split(*stored)? {
            Child::Counts(count) if count >= get.order.size() => {
                if get.order.is_huge() {
                    *stored = FLAG;
                    let frame = huge as u32 * 512;
                    return get.at(Taking::Last { frame });
                }
                *stored = count - get.order.size();
                get.at(Taking::Word { search, word: 0 })
            }
            _ => get.next_child(search),
        }
    }

    #[inline(always)]
    fn word(&mut self, get: Get, search: Search, word: u8) -> Step {
        get.check_search(search)?;
        check(word < 8 && !get.order.is_huge())?;
        let index = huge(search) * 8 + usize::from(word);
        let stored = entry(self.words, index)?;
        match lowest(*stored, get.order) {
            Some(bit) => {
                *stored |= run(get.order) << bit;
                let frame = index as u32 * 64 + bit;
                get.at(Taking::Last { frame })
            }
            None if word < 7 => {
                let word = word + 1;
                get.at(Taking::Word { search, word })
            }
            None => get.at(Taking::GiveBack(search)),
        }
    }

    #[inline(always)]
    fn give_back(&mut self, get: Get, search: Search) -> Step {
        get.check_search(search)?;
        check(!get.order.is_huge())?;
        let stored = entry(self.children, huge(search))?;
        *stored = super::entries::raised(*stored, get.order.size())?;
        get.next_child(search)
    }

    #[inline(always)]
    fn last(&mut self, get: Get, frame: u32) -> Step {
        check(block_in(get.shape, get.order, frame))?;
        let own = entry(self.cpus, get.cpu.into())?;
        let huge = frame / u32::from(CHILD_FRAMES);
        match Held::split(*own, get.shape)? {
            Some(held) if u32::from(held.tree) == huge / 32 => {
                let start = (huge % 32) as u8;
                *own = Held { start, ..held }.join();
            }
            _ => {}
        }
        Ok(Answer::Done(frame.into()))
    }

    #[inline(always)]
    fn fail(&mut self, get: Get, place: Place) -> Step {
        get.check_place(place)?;
        self.add(get, place.tree(), get.order.size(), FLAG)?;
        get.at(Taking::Release(place))
    }
}

/// The bits of a run, at the word's lowest.
#[inline(always)]
pub fn run(order: Order) -> u64 {
    u64::MAX >> (64 - u32::from(order.size()).min(64))
}

/// Lowers the own entry; the search starts from its start child.
#[inline(always)]
fn claim(own: &mut u64, get: Get, held: Held) -> Step {
    let count = held.count - get.order.size();
    *own = Held { count, ..held }.join();
    let place = Place::Own { tree: held.tree };
    let (start, child) = (held.start, held.start);
    get.at(Taking::Child(Search {
        place,
        start,
        child,
    }))
}

/// Makes the own entry absent, if it still holds the place's tree.
#[inline(always)]
fn let_go(own: &mut u64, get: Get, place: Place, held: Option<Held>) -> Step {
    match held {
        Some(held) if held.tree == place.tree() => {
            *own = 0;
            let hand = held.count;
            get.at(Taking::Unreserve { place, hand })
        }
        _ => get.after(place),
    }
}
