//! Every cut that may follow one store: at once, and after each store of the open that comes next.

use std::fmt;

use lovarntek::calls::Tables;
use reference::rng::Rng;

use super::after;
use super::change;
use super::owners::Lost;
use crate::block::Block;
use crate::check;
use crate::frames::Taken;
use crate::junk::Junk;
use crate::life;
use crate::state::{self, State};

/// The largest zone whose opens are cut after every store; in a larger one, a sample is.
const EXHAUSTIVE: usize = 65;

/// How many stores of a larger zone's open are cut after, about.
const SAMPLE: u64 = 24;

/// The largest zone in which the open after a cut inside an open is cut too.
const TWICE: usize = 2;

/// What was tried.
#[derive(Clone, Copy, Debug, Default, PartialEq, Eq)]
pub struct Tally {
    pub scripts: u64,
    /// Cuts after stores of scripts.
    pub stores: u64,
    /// Cuts inside the opens that followed.
    pub inside: u64,
    /// Closes answered Done.
    pub closes: u64,
    /// What the cuts after stores of scripts lost.
    pub lost: Lost,
}

/// One cut, to be explored.
pub struct Cut<'a> {
    pub tables: &'a Tables<'a>,
    pub expected: &'a Taken,
    pub held: &'a [Block],
}

/// Where a fault stands within the exploration, and what differs.
pub type Told = (String, String);

impl Cut<'_> {
    /// Cuts here, opens, and cuts again after the stores of that open; every open that ends is checked and its zone used.
    pub fn explore(&self, rng: &mut Rng, tally: &mut Tally) -> Result<(), Told> {
        let junk = rng.pick(&Junk::ALL);
        let mut cut = state::cut(self.tables, junk, rng);
        let depth = 1 + u64::from(self.tables.children.len() <= TWICE);
        self.open(&mut cut, depth, rng, tally)
            .map_err(|(place, what)| (format!("cut, junk {}{place}", junk.name()), what))
    }

    /// Opens, with cuts inside so many opens within one another, then checks and uses the zone.
    fn open(
        &self,
        state: &mut State,
        depth: u64,
        rng: &mut Rng,
        tally: &mut Tally,
    ) -> Result<(), Told> {
        let mut single = Single::of(state, depth > 0);
        let share = self.share();
        let mut place = String::new();
        let opened = life::open(&mut state.tables(), |store, tables| {
            single.check(tables)?;
            if depth == 0 || rng.below(share) != 0 {
                return Ok(());
            }
            let junk = Junk::ALL[(tally.inside % 4) as usize];
            tally.inside += 1;
            let mut cut = state::cut(tables, junk, rng);
            let again = self.open(&mut cut, depth - 1, rng, tally);
            again.map_err(|(within, what)| {
                let name = junk.name();
                place = format!("; cut again after store {store} of the open, junk {name}{within}");
                what
            })
        });
        let ended = opened.and_then(|()| self.use_opened(state, rng));
        ended.map_err(|what| (place, what))
    }

    /// One of how many stores of an open is cut after.
    fn share(&self) -> u64 {
        if self.tables.children.len() <= EXHAUSTIVE {
            return 1;
        }
        (life::stores(self.tables) / SAMPLE).max(1)
    }

    /// Checks an opened zone against the owners' lists, and uses it.
    fn use_opened(&self, state: &mut State, rng: &mut Rng) -> Result<(), String> {
        check::opened(&state.tables(), self.expected)?;
        life::settled(&mut state.tables())?;
        after::play(state, self.expected, self.held, rng)
            .map_err(|what| format!("used after the open: {what}"))
    }
}

/// The check that each step of an open changes one entry at most: a cut between two stores of one step would not be tried. Only for opens that are
/// cut after every store.
struct Single(Option<State>);

impl Single {
    fn of(state: &mut State, cut: bool) -> Self {
        let small = state.tables().children.len() <= EXHAUSTIVE;
        Single((cut && small).then(|| state.clone()))
    }

    /// Compares with the tables before, and keeps these.
    fn check(&mut self, tables: &Tables<'_>) -> Result<(), String> {
        let Some(before) = &mut self.0 else {
            return Ok(());
        };
        let before = before.tables();
        change::between(&before, tables)?;
        before.header.copy_from_slice(tables.header);
        before.words.copy_from_slice(tables.words);
        before.children.copy_from_slice(tables.children);
        before.trees.copy_from_slice(tables.trees);
        before.cpus.copy_from_slice(tables.cpus);
        Ok(())
    }
}

impl fmt::Display for Tally {
    fn fmt(&self, f: &mut fmt::Formatter<'_>) -> fmt::Result {
        let cuts = self.stores + self.inside;
        let lost = self.lost.gets + self.lost.puts;
        write!(
            f,
            "{} scripts, {} closes; {cuts} cuts tried: {} after stores, {} inside opens; blocks lost by the cuts after stores: {lost}, {} by gets, {} by puts",
            self.scripts, self.closes, self.stores, self.inside, self.lost.gets, self.lost.puts
        )
    }
}
