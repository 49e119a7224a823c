//! Generated calls, scene by scene.

mod beginnings;
mod defects;
mod directed;
mod forged;
mod life;
mod one_call;
pub mod schedule;
mod sizes;

use reference::rng::Rng;

use crate::fault::Fault;
use crate::player::{Played, Player, Stop};

/// One scene of so many is of the largest zone.
const LARGEST_EVERY: u64 = 1_000;

type Scene = fn(&mut Player) -> Played;

/// The scenes, each with its share.
const SCENES: [(u64, Scene); 19] = [
    (15, schedule::mixed),
    (8, schedule::crowded),
    (4, schedule::near),
    (40, forged::in_range),
    (50, forged::damaged),
    (60, forged::changed),
    (20, forged::runs),
    (20, forged::without_fuel),
    (4, forged::near),
    (70, forged::short),
    (70, defects::one),
    (50, defects::several),
    (70, beginnings::numbers),
    (16, one_call::any),
    (12, life::cycle),
    (12, life::closes),
    (12, life::opens),
    (12, directed::all),
    (60, directed::fragmented),
];

/// Plays scenes until the player's limit or a difference.
pub fn play(player: &mut Player, seed: u64) -> Stop {
    let shares = SCENES.iter().map(|(share, _)| share).sum();
    let mut number = 0;
    loop {
        player.rng = Rng::new(seed, number);
        let mut share = player.rng.below(shares);
        let scene = SCENES.iter().find(|(width, _)| {
            let here = share < *width;
            share = share.saturating_sub(*width);
            here
        });
        let large = number % LARGEST_EVERY == LARGEST_EVERY / 2;
        let played = match scene {
            _ if large => sizes::largest(player),
            Some((_, scene)) => scene(player),
            None => Ok(()),
        };
        if let Err(stop) = played {
            return stop;
        }
        number += 1;
    }
}

/// A player of a seed's scenes.
pub fn player(seed: u64, fault: Option<Fault>, calls: u64) -> Player {
    Player::new(Rng::new(seed, 0), fault, calls)
}
