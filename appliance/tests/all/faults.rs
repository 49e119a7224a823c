//! Faults between the library and what is kept, and in the owners' lists, are seen.

use appliance::cuts::explore::{Cut, Tally};
use appliance::cuts::owners::Lost;
use appliance::cuts::player::Player;
use appliance::state::State;
use lovarntek::Order;
use reference::rng::Rng;

const N: u64 = 33;

/// A player of one CPU on a created zone.
fn player() -> Player {
    Player::new(N, 1, Rng::new(1, 0)).unwrap()
}

/// A player that holds one block.
fn holding(order: Order) -> Player {
    let mut player = player();
    player.begin_get(0, order).unwrap();
    while player.choose_busy() {
        player.tick().unwrap();
    }
    player
}

/// Steps until this is at stake, and hands back the zone as it was one step earlier.
fn until(player: &mut Player, at_stake: Lost) -> State {
    loop {
        let before = player.state.clone();
        player.tick().unwrap();
        if player.owners.at_stake() == at_stake {
            return before;
        }
    }
}

/// What the exploration of a cut says, by the owners' lists.
fn explored(player: &mut Player) -> Result<(), String> {
    let expected = player.owners.expected(N)?;
    let cut = Cut {
        tables: &player.state.tables(),
        expected: &expected,
        held: &player.owners.held,
    };
    let explored = cut.explore(&mut player.rng, &mut Tally::default());
    explored.map_err(|(_, what)| what)
}

#[test]
fn a_list_that_forgets_a_held_block() {
    for order in Order::ALL {
        let mut player = holding(order);
        assert_eq!(explored(&mut player), Ok(()));
        player.owners.held.clear();
        let told = explored(&mut player).unwrap_err();
        assert_eq!(told, "frame 0: taken, expected free");
    }
}

#[test]
fn a_list_with_a_block_of_another_size() {
    let mut player = holding(Order::Run4);
    player.owners.held[0].order = Order::Run8;
    let told = explored(&mut player).unwrap_err();
    assert_eq!(told, "frame 4: free, expected taken");
}

#[test]
fn a_taking_store_that_is_not_kept() {
    for order in Order::ALL {
        let mut player = player();
        player.begin_get(0, order).unwrap();
        let before = until(&mut player, Lost { gets: 1, puts: 0 });
        assert_eq!(explored(&mut player), Ok(()));
        player.state = before;
        let told = explored(&mut player).unwrap_err();
        assert_eq!(told, "frame 0: free, expected taken");
    }
}

#[test]
fn a_clearing_store_that_is_not_kept() {
    for order in Order::ALL {
        let mut player = holding(order);
        player.begin_put(0, 0).unwrap();
        let before = until(&mut player, Lost::default());
        assert_eq!(explored(&mut player), Ok(()));
        player.state = before;
        let told = explored(&mut player).unwrap_err();
        assert_eq!(told, "frame 0: taken, expected free");
    }
}

#[test]
fn half_of_a_store() {
    let mut player = holding(Order::Run64);
    player.state.tables().words[0] &= u64::MAX >> 32;
    let told = explored(&mut player).unwrap_err();
    assert_eq!(told, "frame 32: free, expected taken");
}

#[test]
fn a_count_that_is_not_kept_is_no_fault() {
    let mut player = holding(Order::Run2);
    player.state.tables().children[0] += 2;
    assert_eq!(explored(&mut player), Ok(()));
}

#[test]
fn a_header_that_is_not_kept() {
    let mut player = holding(Order::Base);
    player.state.tables().header[0] = 0;
    let told = explored(&mut player).unwrap_err();
    assert_eq!(told, "open answers 9, expected 0");
}
