//! What one step may change, and what is no block.

use appliance::block::Block;
use appliance::cuts::change::{Change, between};
use appliance::cuts::operation::{End, Kind};
use appliance::state::{self, State};
use lovarntek::Order;
use lovarntek::calls::Answered;

fn changed(change: impl FnOnce(&mut State)) -> Result<Change, String> {
    let mut before = state::created(2, 1).unwrap();
    let mut after = before.clone();
    change(&mut after);
    between(&before.tables(), &after.tables())
}

fn block(frame: u64, order: Order) -> Block {
    Block { frame, order }
}

#[test]
fn one_entry_or_none() {
    assert_eq!(changed(|_| {}), Ok(Change::Nothing));
    assert_eq!(
        changed(|state| state.tables().trees[0] -= 1),
        Ok(Change::Counts)
    );
    assert_eq!(
        changed(|state| state.tables().children[1] -= 1),
        Ok(Change::Counts)
    );
    let two = changed(|state| {
        state.tables().children[1] -= 1;
        state.tables().words[8] |= 1;
    });
    assert!(two.is_err());
}

#[test]
fn blocks_by_bits_and_by_flags() {
    let taken = |frame, order| Ok(Change::Taken(block(frame, order)));
    assert_eq!(
        changed(|state| state.tables().words[9] = 1 << 63),
        taken(639, Order::Base)
    );
    assert_eq!(
        changed(|state| state.tables().words[1] = 0xF0),
        taken(68, Order::Run4)
    );
    assert_eq!(
        changed(|state| state.tables().words[1] = u64::MAX),
        taken(64, Order::Run64)
    );
    assert_eq!(
        changed(|state| state.tables().children[1] = 1 << 15),
        taken(512, Order::Huge)
    );
    for bits in [0b110, 0b101, 0b111] {
        assert!(changed(|state| state.tables().words[0] = bits).is_err());
    }
}

#[test]
fn a_get_takes_once_and_its_own_size() {
    let start = Kind::Get {
        order: Order::Run2,
        taken: None,
    };
    let mut get = start;
    assert!(get.note(Change::Taken(block(0, Order::Base))).is_err());
    assert!(get.note(Change::Freed(block(0, Order::Run2))).is_err());
    assert_eq!(get.at_stake(), None);
    assert_eq!(get.note(Change::Taken(block(2, Order::Run2))), Ok(()));
    assert_eq!(get.at_stake(), Some(block(2, Order::Run2)));
    assert!(get.note(Change::Taken(block(4, Order::Run2))).is_err());
    let answered = |number, frame| Answered { number, frame };
    assert_eq!(
        get.end(answered(0, 2)),
        Ok(Some(End::Got(block(2, Order::Run2))))
    );
    assert!(get.end(answered(0, 4)).is_err());
    assert!(get.end(answered(2, 0)).is_err());
    assert_eq!(start.end(answered(2, 0)), Ok(Some(End::Nothing)));
    assert!(start.end(answered(0, 2)).is_err());
}

#[test]
fn a_put_is_at_stake_until_its_clearing_store() {
    let mut put = Kind::Put {
        block: block(512, Order::Huge),
        cleared: false,
    };
    let answered = Answered {
        number: 0,
        frame: 512,
    };
    assert_eq!(put.at_stake(), Some(block(512, Order::Huge)));
    assert!(put.end(answered).is_err());
    assert!(put.note(Change::Freed(block(0, Order::Huge))).is_err());
    assert_eq!(put.note(Change::Freed(block(512, Order::Huge))), Ok(()));
    assert_eq!(put.at_stake(), None);
    assert_eq!(put.end(answered), Ok(Some(End::Nothing)));
}
