//! One schedule, played on both sides.

use reference::rng::Rng;

use crate::fault::Fault;
use crate::pair::Side;
use crate::player::{Player, Stop};
use crate::scenes::schedule::Schedule;
use crate::states;
use crate::translate::Shape;

/// The most steps of a replay.
pub const MOST_STEPS: u64 = 1_000_000_000;

/// A schedule's numbers.
#[derive(Clone, Copy, Debug, PartialEq, Eq)]
pub struct Replay {
    pub seed: u64,
    pub cpus: u64,
    pub steps: u64,
    /// Huge frames; by the seed if none.
    pub n: Option<u64>,
    /// A fault of the reference.
    pub fault: Option<Fault>,
    pub side: Side,
}

impl Replay {
    /// Whether the numbers are those of a zone and of a replay that ends.
    pub fn in_range(&self) -> bool {
        (1..=64).contains(&self.cpus)
            && self.n.is_none_or(|n| (1..=65_536).contains(&n))
            && self.steps <= MOST_STEPS
    }

    /// Plays the steps; how they ended.
    pub fn play(&self) -> Stop {
        let mut rng = Rng::new(self.seed, 0);
        let n = self.n.unwrap_or_else(|| rng.between(1, 100));
        let shape = Shape {
            n: n as usize,
            cpus: self.cpus as usize,
        };
        let mut player = Player::new(rng, self.fault, self.steps);
        player.pair.side = self.side;
        player.load(states::fresh(shape));
        let mut schedule = Schedule::new(&mut player, false);
        loop {
            if let Err(stop) = schedule.tick(&mut player) {
                return stop;
            }
        }
    }
}
