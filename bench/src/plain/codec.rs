//! A record as the library's two words.

use super::{Giving, Order, Place, Record, Search, Taking};

const CPU: u64 = 0xff << 48;
const ORDER: u64 = 0xff << 40;
const KIND: u64 = 0xff << 32;
const SEARCH: u64 = 0xffff << 16;
const WORD: u64 = 0xff << 8;
const STAGE: u64 = 0xff << 56;

const TREE: u64 = 0xffff << 48;
const BASE: u64 = 0xffff << 32;
const HAND: u64 = 0xffff << 16;
const FROM: u64 = 0xff << 8;

/// The fields of a place in both words.
#[inline(always)]
fn spot(place: Place) -> (u64, u64) {
    let (kind, rest) = match place {
        Place::Own { .. } => (1, 0),
        Place::Near { base, .. } => (2, u64::from(base) << 32),
        Place::Partial { .. } => (3, 0),
        Place::Free { .. } => (4, 0),
        Place::Any { .. } => (5, 0),
        Place::Stolen { from, .. } => (6, u64::from(from) << 8),
    };
    (kind << 32, at(place.tree()) | rest)
}

#[inline(always)]
fn at(tree: u16) -> u64 {
    u64::from(tree) << 48
}

#[inline(always)]
fn held(hand: u16) -> u64 {
    u64::from(hand) << 16
}

#[inline(always)]
fn searched(search: Search) -> (u64, u64) {
    let (kind, second) = spot(search.place);
    let first = kind | u64::from(search.start) << 24 | u64::from(search.child) << 16;
    (first, second)
}

/// A block by its first frame, a huge one by its number.
#[inline(always)]
fn block(order: Order, frame: u32) -> u64 {
    u64::from(if order.is_huge() { frame / 512 } else { frame })
}

/// The two words of a record.
#[inline(always)]
pub fn encode(record: Record) -> [u64; 2] {
    let (stage, cpu, order, first, second) = match record {
        Record::Finished => return [0, 0],
        Record::Get { cpu, order, stage } => {
            let (number, first, second) = taking(order, stage);
            let order = if number == 17 { Order::BASE } else { order };
            (number, cpu, order, first, second)
        }
        Record::Put { cpu, order, stage } => {
            let (number, second) = giving(order, stage);
            (number, cpu, order, 0, second)
        }
    };
    let head = stage << 56 | u64::from(cpu) << 48 | u64::from(order.number()) << 40;
    [head | first, second]
}

#[inline(always)]
fn taking(order: Order, stage: Taking) -> (u64, u64, u64) {
    let number = |stage, (first, second): (u64, u64), hand| (stage, first, second | held(hand));
    match stage {
        Taking::Own => (1, 0, 0),
        Taking::TakeCount { tree } => (2, 0, at(tree)),
        Taking::FillEntry { tree, hand } => (3, 0, at(tree) | held(hand)),
        Taking::ReturnHand { tree, hand } => (4, 0, at(tree) | held(hand)),
        Taking::LookAgain { tree } => (5, 0, at(tree)),
        Taking::Release(place) => number(6, spot(place), 0),
        Taking::Unreserve { place, hand } => number(7, spot(place), hand),
        Taking::Try(place) => number(8, spot(place), 0),
        Taking::Write { place, hand } => number(9, spot(place), hand),
        Taking::Steal { from } => (10, 0, u64::from(from) << 8),
        Taking::StealCount { from, tree, hand } => {
            number(11, spot(Place::Stolen { tree, from }), hand)
        }
        Taking::Child(search) => number(12, searched(search), 0),
        Taking::Word { search, word } => {
            let (first, second) = searched(search);
            (13, first | u64::from(word) << 8, second)
        }
        Taking::GiveBack(search) => number(14, searched(search), 0),
        Taking::Last { frame } => (15, 0, block(order, frame)),
        Taking::Fail(place) => number(16, spot(place), 0),
        Taking::NoRoom => (17, 0, 0),
    }
}

#[inline(always)]
fn giving(order: Order, stage: Giving) -> (u64, u64) {
    match stage {
        Giving::Clear { frame } => (18, block(order, frame)),
        Giving::Raise { frame } => (19, block(order, frame)),
        Giving::ToEntry { frame } => (20, block(order, frame)),
        Giving::ToTree { frame } => (21, block(order, frame)),
    }
}

/// The record of two words; the finished one where they are no get's or put's.
#[inline(always)]
pub fn decode(words: [u64; 2]) -> Record {
    read(words).unwrap_or(Record::Finished)
}

#[inline(always)]
fn read([first, second]: [u64; 2]) -> Option<Record> {
    let number = (first >> 56) as u8;
    let cpu = (first >> 48) as u8;
    let order = Order::new((first >> 40) & 0xff)?;
    if number >= 18 {
        let stage = giving_at(number, first, second, order)?;
        return Some(Record::Put { cpu, order, stage });
    }
    let stage = taking_at(number, first, second, order)?;
    Some(Record::Get { cpu, order, stage })
}

/// Nothing, unless every bit outside a mask is 0.
#[inline(always)]
fn only(word: u64, mask: u64) -> Option<()> {
    (word & !mask == 0).then_some(())
}

/// A block's first frame. One that 32 bits do not hold lies in no zone.
#[inline(always)]
fn frame_at(second: u64, order: Order) -> Option<u32> {
    let number = u32::try_from(second).ok()?;
    if order.is_huge() {
        number.checked_mul(512)
    } else {
        Some(number)
    }
}

#[inline(always)]
fn giving_at(number: u8, first: u64, second: u64, order: Order) -> Option<Giving> {
    only(first, STAGE | CPU | ORDER)?;
    let frame = frame_at(second, order)?;
    Some(match number {
        18 => Giving::Clear { frame },
        19 if !order.is_huge() => Giving::Raise { frame },
        20 => Giving::ToEntry { frame },
        21 => Giving::ToTree { frame },
        _ => return None,
    })
}

/// A place, with the fields that it uses; `more` masks the others that may be there.
#[inline(always)]
fn place_at(first: u64, second: u64, more: u64) -> Option<Place> {
    let tree = (second >> 48) as u16;
    let (place, used) = match (first >> 32) as u8 {
        1 => (Place::Own { tree }, 0),
        2 => {
            let base = (second >> 32) as u16;
            (Place::Near { tree, base }, BASE)
        }
        3 => (Place::Partial { tree }, 0),
        4 => (Place::Free { tree }, 0),
        5 => (Place::Any { tree }, 0),
        6 => {
            let from = (second >> 8) as u8;
            (Place::Stolen { tree, from }, FROM)
        }
        _ => return None,
    };
    only(second, TREE | used | more)?;
    Some(place)
}

#[inline(always)]
fn search_at(first: u64, second: u64) -> Option<Search> {
    Some(Search {
        place: place_at(first, second, 0)?,
        start: (first >> 24) as u8,
        child: (first >> 16) as u8,
    })
}

#[inline(always)]
fn taking_at(number: u8, first: u64, second: u64, order: Order) -> Option<Taking> {
    let tree = (second >> 48) as u16;
    let hand = (second >> 16) as u16;
    let from = (second >> 8) as u8;
    let (head, tail) = masks(number)?;
    only(first, STAGE | CPU | ORDER | head)?;
    only(second, tail)?;
    let run = !order.is_huge();
    Some(match number {
        1 => Taking::Own,
        2 => Taking::TakeCount { tree },
        3 => Taking::FillEntry { tree, hand },
        4 => Taking::ReturnHand { tree, hand },
        5 => Taking::LookAgain { tree },
        6 => Taking::Release(place_at(first, second, 0)?),
        7 => Taking::Unreserve {
            place: place_at(first, second, HAND)?,
            hand,
        },
        8 => match place_at(first, second, 0)? {
            Place::Own { .. } | Place::Stolen { .. } => return None,
            place => Taking::Try(place),
        },
        9 => match place_at(first, second, HAND)? {
            Place::Own { .. } => return None,
            place => Taking::Write { place, hand },
        },
        10 => Taking::Steal { from },
        11 if first & KIND == 6 << 32 => Taking::StealCount { from, tree, hand },
        12 => Taking::Child(search_at(first, second)?),
        13 if run => Taking::Word {
            search: search_at(first, second)?,
            word: (first >> 8) as u8,
        },
        14 if run => Taking::GiveBack(search_at(first, second)?),
        15 => Taking::Last {
            frame: frame_at(second, order)?,
        },
        16 => Taking::Fail(place_at(first, second, 0)?),
        17 if first & ORDER == 0 => Taking::NoRoom,
        _ => return None,
    })
}

/// The bits that a get's stage may use, beside stage, CPU and order.
#[inline(always)]
fn masks(number: u8) -> Option<(u64, u64)> {
    const PLACE: u64 = TREE | BASE | FROM;
    Some(match number {
        1 | 17 => (0, 0),
        2 | 5 => (0, TREE),
        3 | 4 => (0, TREE | HAND),
        6 | 8 | 16 => (KIND, PLACE),
        7 | 9 => (KIND, PLACE | HAND),
        10 => (0, FROM),
        11 => (KIND, TREE | HAND | FROM),
        12 | 14 => (KIND | SEARCH, PLACE),
        13 => (KIND | SEARCH | WORD, PLACE),
        15 => (0, u64::MAX),
        _ => return None,
    })
}
