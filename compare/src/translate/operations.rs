//! Records of gets and puts.

use reference::get::{Get, Search, Stage};
use reference::operation::{Operation, Order};
use reference::put::{Put, PutStage};

use crate::record::{Record, kind, stage};
use crate::translate::Shape;
use crate::translate::places::{Spot, spot_of};

const CHILD_FRAMES: u64 = 512;

/// A record's order; a record has none that blocks have not.
fn order_of(record: &Record) -> Order {
    Order::from_number(record.order.into()).unwrap_or(Order::BASE)
}

fn frame_of(record: &Record) -> u64 {
    match record.order {
        9 => record.number * CHILD_FRAMES,
        _ => record.number,
    }
}

/// A get's or put's record; one that the reference refuses with 11 where its type has none.
pub fn operation(record: Option<Record>, shape: Shape) -> Operation {
    let Some(record) = record else {
        return Operation::Finished;
    };
    match record.stage {
        stage::OWN..=stage::NO_ROOM => {
            get(&record, shape).map_or(Operation::Finished, Operation::Get)
        }
        stage::CLEAR..=stage::TO_TREE => Operation::Put(put(&record)),
        _ => Operation::Finished,
    }
}

fn put(record: &Record) -> Put {
    let stage = match record.stage {
        stage::CLEAR => PutStage::Clear,
        stage::RAISE => PutStage::RaiseChild,
        stage::TO_ENTRY => PutStage::OwnEntry,
        _ => PutStage::Tree,
    };
    Put {
        cpu: record.cpu.into(),
        frame: frame_of(record),
        order: order_of(record),
        stage,
    }
}

fn get(record: &Record, shape: Shape) -> Option<Get> {
    let cpu = record.cpu.into();
    let begun = Get::new(cpu, order_of(record));
    if record.stage == stage::OWN {
        return Some(begun);
    }
    if record.stage == stage::LAST {
        let frame = frame_of(record);
        let stage = Stage::KeepStart { frame };
        return Some(Get { stage, ..begun });
    }
    let (own, after) = shape.number(cpu, spot_of(record))?;
    let stage = get_stage(record, shape);
    let place = if stage == Stage::TryPlace {
        after - 1
    } else {
        after
    };
    Some(Get {
        own,
        place,
        stage,
        ..begun
    })
}

fn get_stage(record: &Record, shape: Shape) -> Stage {
    let (tree, hand) = (record.tree.into(), record.hand.into());
    let search = search_of(record, shape);
    match record.stage {
        stage::TAKE_COUNT => Stage::TakeCount { tree },
        stage::FILL_ENTRY => Stage::FillEntry { tree, hand },
        stage::RETURN_HAND => Stage::ReturnHand { tree, hand },
        stage::LOOK_AGAIN => Stage::LookAgain { tree },
        stage::RELEASE => Stage::ReleaseEntry { tree },
        stage::UNRESERVE if record.kind == kind::STOLEN => Stage::StealReturn { tree, hand },
        stage::UNRESERVE => Stage::ReleaseTree { tree, hand },
        stage::WRITE => Stage::WriteEntry { tree, hand },
        stage::STEAL_COUNT => Stage::StealCount { tree, hand },
        stage::CHILD => Stage::SearchChild(search),
        stage::WORD => Stage::SearchWord {
            search,
            word: record.word.into(),
        },
        stage::GIVE_BACK => Stage::GiveBack(search),
        stage::FAIL => Stage::ReturnClaim { tree },
        _ => Stage::TryPlace,
    }
}

/// A start or child past the last child stays out of the reference's range.
fn search_of(record: &Record, shape: Shape) -> Search {
    let tree = record.tree.into();
    let (start, child) = (usize::from(record.start), usize::from(record.child));
    let width = shape.width(tree);
    let tried = if start >= width || child >= width {
        child
    } else if child >= start {
        child - start
    } else {
        child + width - start
    };
    Search { tree, start, tried }
}

/// The library's record of a get or put.
pub fn of_operation(operation: &Operation, shape: Shape) -> Record {
    match operation {
        Operation::Finished => Record::FINISHED,
        Operation::Get(get) => of_get(get, shape),
        Operation::Put(put) => of_put(put),
    }
}

fn of_put(put: &Put) -> Record {
    let stage = match put.stage {
        PutStage::Clear => stage::CLEAR,
        PutStage::RaiseChild => stage::RAISE,
        PutStage::OwnEntry => stage::TO_ENTRY,
        PutStage::Tree => stage::TO_TREE,
    };
    on_block(stage, put.cpu, put.order, put.frame)
}

/// A record on a block: a run's first frame, or the huge frame's number.
fn on_block(stage: u8, cpu: usize, order: Order, frame: u64) -> Record {
    let number = if order.is_huge() {
        frame / CHILD_FRAMES
    } else {
        frame
    };
    Record {
        stage,
        cpu: cpu as u8,
        order: order.number() as u8,
        number,
        ..Record::FINISHED
    }
}

fn of_get(get: &Get, shape: Shape) -> Record {
    let begun = Record {
        cpu: get.cpu as u8,
        order: get.order.number() as u8,
        ..Record::FINISHED
    };
    let on_tree = |stage, tree, hand| Record {
        stage,
        tree: tree as u16,
        hand: hand as u16,
        ..begun
    };
    let at_place = |stage, tree, hand| placed(on_tree(stage, tree, hand), get, shape);
    let searching = |stage, search: Search, word| {
        searching(at_place(stage, search.tree, 0), search, word, shape)
    };
    match get.stage {
        Stage::Look => on_tree(stage::OWN, 0, 0),
        Stage::TakeCount { tree } => on_tree(stage::TAKE_COUNT, tree, 0),
        Stage::FillEntry { tree, hand } => on_tree(stage::FILL_ENTRY, tree, hand),
        Stage::ReturnHand { tree, hand } => on_tree(stage::RETURN_HAND, tree, hand),
        Stage::LookAgain { tree } => on_tree(stage::LOOK_AGAIN, tree, 0),
        Stage::ReleaseEntry { tree } => at_place(stage::RELEASE, tree, 0),
        Stage::ReleaseTree { tree, hand } | Stage::StealReturn { tree, hand } => {
            at_place(stage::UNRESERVE, tree, hand)
        }
        Stage::TryPlace => trying(begun, get, shape),
        Stage::StealCount { tree, hand } => at_place(stage::STEAL_COUNT, tree, hand),
        Stage::WriteEntry { tree, hand } => at_place(stage::WRITE, tree, hand),
        Stage::SearchChild(search) => searching(stage::CHILD, search, 0),
        Stage::SearchWord { search, word } => searching(stage::WORD, search, word),
        Stage::GiveBack(search) => searching(stage::GIVE_BACK, search, 0),
        Stage::ReturnClaim { tree } => at_place(stage::FAIL, tree, 0),
        Stage::KeepStart { frame } => on_block(stage::LAST, get.cpu, get.order, frame),
    }
}

/// A record with the place before the get's next one; the own tree before the first.
fn placed(record: Record, get: &Get, shape: Shape) -> Record {
    let Some(number) = get.place.checked_sub(1) else {
        return Record {
            kind: kind::OWN,
            ..record
        };
    };
    match shape.spot(get.cpu, get.own, number) {
        Spot::Near { base, .. } => Record {
            kind: kind::NEAR,
            base: base as u16,
            ..record
        },
        Spot::Pass { kind, .. } => Record { kind, ..record },
        Spot::Cpu(from) => Record {
            kind: kind::STOLEN,
            from: from as u8,
            ..record
        },
        Spot::Own(_) | Spot::End => record,
    }
}

/// A record that stands before the get's next place.
fn trying(record: Record, get: &Get, shape: Shape) -> Record {
    let stage = stage::TRY;
    match shape.spot(get.cpu, get.own, get.place) {
        Spot::Near { tree, base } => Record {
            stage,
            kind: kind::NEAR,
            tree: tree as u16,
            base: base as u16,
            ..record
        },
        Spot::Pass { kind, tree } => Record {
            stage,
            kind,
            tree: tree as u16,
            ..record
        },
        Spot::Cpu(from) => Record {
            stage: stage::STEAL,
            from: from as u8,
            ..record
        },
        Spot::Own(_) | Spot::End => Record {
            stage: stage::NO_ROOM,
            order: 0,
            ..record
        },
    }
}

fn searching(record: Record, search: Search, word: usize, shape: Shape) -> Record {
    let width = shape.width(search.tree).max(1);
    Record {
        start: search.start as u8,
        child: ((search.start + search.tried) % width) as u8,
        word: word as u8,
        ..record
    }
}
