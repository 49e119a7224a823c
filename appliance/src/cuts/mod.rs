//! Scripts of several CPUs, cut after every store.

pub mod after;
pub mod change;
pub mod explore;
pub mod fill;
pub mod operation;
pub mod owners;
pub mod player;
pub mod script;
pub mod whole;

use std::fmt;

use explore::Tally;
use fill::Fill;
use reference::rng::Rng;
use script::Script;

/// The sizes that scripts go through, unless one is given.
const SIZES: [u64; 4] = [1, 2, 33, 65];

/// What to play.
#[derive(Clone, Copy, Debug)]
pub struct Plan {
    pub seed: u64,
    pub scripts: u64,
    /// CPUs; by the seed if none.
    pub cpus: Option<u64>,
    /// Huge frames; by the script's number if none.
    pub n: Option<u64>,
    /// The steps of a script, not counting those that end what is under way.
    pub steps: u64,
}

/// The first fault: where, when, and what differs.
#[derive(Clone, Debug, PartialEq, Eq)]
pub struct Fault {
    pub script: String,
    pub place: String,
    pub what: String,
}

/// Plays all scripts, or those up to the first fault.
pub fn play(plan: &Plan) -> (Tally, Option<Fault>) {
    let mut tally = Tally::default();
    for number in 0..plan.scripts {
        let mut rng = Rng::new(plan.seed, number);
        let script = Script {
            n: plan.n.unwrap_or(SIZES[number as usize % SIZES.len()]),
            cpus: plan.cpus.unwrap_or_else(|| rng.between(1, 5)),
            fill: Fill::ALL[number as usize / SIZES.len() % Fill::ALL.len()],
            steps: plan.steps,
        };
        tally.scripts += 1;
        if let Err((place, what)) = script.play(rng, &mut tally) {
            let script = format!("seed {}, script {number}: {script}", plan.seed);
            return (
                tally,
                Some(Fault {
                    script,
                    place,
                    what,
                }),
            );
        }
    }
    (tally, None)
}

impl fmt::Display for Fault {
    fn fmt(&self, f: &mut fmt::Formatter<'_>) -> fmt::Result {
        write!(f, "{}\n  {}\n  {}", self.script, self.place, self.what)
    }
}
