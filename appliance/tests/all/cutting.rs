//! The exploration of a cut passes what is right and sees what is wrong.

use appliance::block::Block;
use appliance::cuts::explore::{Cut, Tally};
use appliance::cuts::owners::Lost;
use appliance::cuts::player::Player;
use appliance::cuts::{Plan, play};
use lovarntek::Order;
use reference::rng::Rng;

/// Explores a cut of a zone with 2 huge frames, on which a get of order 0 has made so many steps. The tally, or what differs.
fn explored(steps: u64, forget: bool) -> Result<Tally, String> {
    let mut player = Player::new(2, 1, Rng::new(1, 0)).unwrap();
    player.begin_get(0, Order::Base).unwrap();
    for _ in 0..steps {
        player.tick().unwrap();
    }
    if forget {
        player.owners.under_way.fill(None);
    }
    let expected = player.owners.expected(2).unwrap();
    let mut tally = Tally::default();
    let cut = Cut {
        tables: &player.state.tables(),
        expected: &expected,
        held: &[],
    };
    let explored = cut.explore(&mut player.rng, &mut tally);
    explored.map(|()| tally).map_err(|(_, what)| what)
}

/// How many steps a get of order 0 makes on a fresh zone up to its taking store.
fn taking_store() -> u64 {
    let mut player = Player::new(2, 1, Rng::new(1, 0)).unwrap();
    player.begin_get(0, Order::Base).unwrap();
    let mut steps = 0;
    while player.owners.at_stake() == Lost::default() {
        player.tick().unwrap();
        steps += 1;
    }
    steps
}

#[test]
fn a_get_loses_nothing_before_its_taking_store_and_one_frame_after() {
    let taking = taking_store();
    for steps in 0..=taking {
        let tally = explored(steps, false).unwrap();
        // The open stores the header, two children, one tree and one CPU; so does the one after each cut inside it.
        assert_eq!(tally.inside, 5 + 5 * 5);
    }
    assert!(explored(taking - 1, true).is_ok());
    assert_eq!(
        explored(taking, true).unwrap_err(),
        "frame 0: taken, expected free"
    );
}

#[test]
fn a_put_counted_as_lost_after_its_clearing_store_is_seen() {
    let mut player = Player::new(1, 1, Rng::new(1, 0)).unwrap();
    player.begin_get(0, Order::Run4).unwrap();
    while player.choose_busy() {
        player.tick().unwrap();
    }
    player.begin_put(0, 0).unwrap();
    let lost = Lost { gets: 0, puts: 1 };
    assert_eq!(player.owners.at_stake(), lost);
    let before = player.owners.expected(1).unwrap();
    player.tick().unwrap();
    assert_eq!(player.owners.at_stake(), Lost::default());
    let after = player.owners.expected(1).unwrap();
    let mut told = [before, after].into_iter().map(|expected| {
        let cut = Cut {
            tables: &player.state.tables(),
            expected: &expected,
            held: &[],
        };
        cut.explore(&mut Rng::new(2, 0), &mut Tally::default())
    });
    assert!(told.next().unwrap().is_err());
    assert!(told.next().unwrap().is_ok());
}

#[test]
fn a_cut_makes_lost_what_was_at_stake() {
    let mut player = Player::new(1, 1, Rng::new(1, 0)).unwrap();
    player.begin_get(0, Order::Run2).unwrap();
    while player.owners.at_stake() == Lost::default() {
        player.tick().unwrap();
    }
    let expected = player.owners.expected(1);
    player.owners.cut_off();
    let block = Block {
        frame: 0,
        order: Order::Run2,
    };
    assert_eq!(player.owners.lost, [block]);
    assert!(player.owners.at_rest());
    assert_eq!(player.owners.expected(1), expected);
}

#[test]
fn a_larger_zone_is_sampled() {
    let plan = Plan {
        seed: 3,
        scripts: 1,
        cpus: Some(64),
        n: Some(130),
        steps: 60,
    };
    let (tally, fault) = play(&plan);
    assert_eq!(fault, None);
    assert!(tally.inside > tally.stores && tally.inside < tally.stores * 100);
}
