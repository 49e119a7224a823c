//! One script: steps, cuts, closes and opens on one zone.

use std::fmt;

use super::change;
use super::explore::{Cut, Tally, Told};
use super::fill::Fill;
use super::player::Player;
use crate::check;
use crate::frames::Taken;
use crate::junk::Junk;
use crate::layout;
use crate::life;
use crate::state::{self, State};
use reference::rng::Rng;

/// The answer of a close that finds counts that do not add up.
const NOT_SETTLED: u64 = 13;

/// The answer of a step on a closed zone.
const CLOSED: u64 = 10;

/// A script's numbers.
#[derive(Clone, Copy, Debug, PartialEq, Eq)]
pub struct Script {
    pub n: u64,
    pub cpus: u64,
    pub fill: Fill,
    pub steps: u64,
}

impl Script {
    /// Plays the script; a fault's place and what differs.
    pub fn play(&self, rng: Rng, tally: &mut Tally) -> Result<(), Told> {
        let mut player = self
            .filled(rng)
            .map_err(|what| (String::from("step 0, filling"), what))?;
        let expected = expected(&player)?;
        explore(&mut player, &expected, tally)?;
        for step in 1..=self.steps {
            let ticked = match player.rng.below(100) {
                0..2 => cut(&mut player),
                2..5 => close(&mut player, false, tally),
                _ => tick(&mut player, tally),
            };
            ticked.map_err(|(place, what)| (format!("step {step}, {place}"), what))?;
        }
        rest(&mut player, tally)
            .and_then(|()| close(&mut player, true, tally))
            .map_err(|(place, what)| (format!("at the end, {place}"), what))
    }

    /// A player on the zone as it is when the script begins.
    fn filled(&self, rng: Rng) -> Result<Player, String> {
        let mut player = Player::new(self.n, self.cpus, rng)?;
        self.fill.fill(&mut player)?;
        let expected = player.owners.expected(self.n)?;
        check::at_rest(&player.state.tables(), &expected)?;
        Ok(player)
    }
}

impl fmt::Display for Script {
    fn fmt(&self, f: &mut fmt::Formatter<'_>) -> fmt::Result {
        let (n, cpus, fill) = (self.n, self.cpus, self.fill.name());
        write!(f, "{n} huge frames, {cpus} CPUs, {fill}")
    }
}

/// One call, and all cuts after it if it stored.
fn tick(player: &mut Player, tally: &mut Tally) -> Result<(), Told> {
    player.choose();
    call(player, tally)
}

/// Steps until nothing is under way, with all cuts after those that store.
fn rest(player: &mut Player, tally: &mut Tally) -> Result<(), Told> {
    while player.choose_busy() {
        call(player, tally)?;
    }
    Ok(())
}

/// The chosen CPU's call, and what follows it.
fn call(player: &mut Player, tally: &mut Tally) -> Result<(), Told> {
    let doing = player.doing();
    let stored = player.tick().map_err(|what| (doing, what))?;
    ticked(player, stored, tally)
}

/// What follows a call: the tables are checked against the lists, and every cut after a store is explored.
fn ticked(player: &mut Player, stored: bool, tally: &mut Tally) -> Result<(), Told> {
    let expected = expected(player)?;
    let tables = player.state.tables();
    let mut checked = check::taken(&tables, &expected);
    if player.owners.at_rest() {
        checked = checked.and_then(|()| check::at_rest(&tables, &expected));
    }
    checked.map_err(|what| (player.doing(), what))?;
    if stored {
        explore(player, &expected, tally)?;
    }
    Ok(())
}

/// Explores every cut after the store just made.
fn explore(player: &mut Player, expected: &Taken, tally: &mut Tally) -> Result<(), Told> {
    let lost = player.owners.at_stake();
    tally.stores += 1;
    player.stores += 1;
    let place = format!("store {}, {}", player.stores, player.doing());
    let cut = Cut {
        tables: &player.state.tables(),
        expected,
        held: &player.owners.held,
    };
    cut.explore(&mut player.rng, tally)
        .map_err(|(cut, what)| (format!("{place}: {cut}"), what))?;
    tally.lost.gets += lost.gets;
    tally.lost.puts += lost.puts;
    Ok(())
}

/// A cut in the script's own history, and the open after it.
fn cut(player: &mut Player) -> Result<(), Told> {
    player.owners.cut_off();
    open(player)
}

/// A close. If it is done, it cuts off what is under way, is explored like any store, and an open follows; `at_rest` demands that it be done.
fn close(player: &mut Player, at_rest: bool, tally: &mut Tally) -> Result<(), Told> {
    let told = |what| (String::from("close"), what);
    let mut before = player.state.clone();
    let number = player.state.tables().close().number;
    if number == NOT_SETTLED && !at_rest && !player.owners.at_rest() && player.state == before {
        return Ok(());
    }
    if number != 0 {
        return Err(told(format!("answers {number}, or stores though refused")));
    }
    clean(player, &mut before).map_err(told)?;
    tally.closes += 1;
    let expected = expected(player)?;
    explore(player, &expected, tally)?;
    closed(player).map_err(told)?;
    player.owners.cut_off();
    open(player)
}

/// Checks that a close has stored the header, and nothing else.
fn clean(player: &mut Player, before: &mut State) -> Result<(), String> {
    let tables = player.state.tables();
    change::between(&before.tables(), &tables)?;
    check::header(&tables, layout::clean(player.n))
}

/// Checks that no operation goes on in a closed zone.
fn closed(player: &mut Player) -> Result<(), String> {
    for operation in player.owners.under_way.iter().flatten() {
        let number = player
            .state
            .tables()
            .step(&mut operation.record.clone())
            .number;
        if number != CLOSED {
            return Err(format!(
                "{}: answers {number} in a closed zone",
                operation.kind
            ));
        }
    }
    Ok(())
}

/// Puts junk into trees and CPUs, opens the zone and checks it.
fn open(player: &mut Player) -> Result<(), Told> {
    let junk = player.rng.pick(&Junk::ALL);
    let expected = expected(player)?;
    player.state = state::cut(&player.state.tables(), junk, &mut player.rng);
    let tables = &mut player.state.tables();
    life::open_all(tables)
        .and_then(|()| check::opened(tables, &expected))
        .map_err(|what| (format!("open, junk {}", junk.name()), what))
}

/// What the owners' lists say.
fn expected(player: &Player) -> Result<Taken, Told> {
    let expected = player.owners.expected(player.n);
    expected.map_err(|what| (player.doing(), what))
}
