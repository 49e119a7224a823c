//! Sizes of zones.

use reference::rng::Rng;

use crate::call::Call;
use crate::player::{Played, Player, Slot};
use crate::states;
use crate::translate::Shape;

/// A size: most often small, with one to three trees.
pub fn any(rng: &mut Rng) -> Shape {
    let n = match rng.below(20) {
        0..=5 => rng.between(1, 4),
        6..=11 => rng.between(1, 40),
        12..=15 => rng.pick(&[31, 32, 33, 34, 63, 64]),
        16..=17 => rng.pick(&[65, 66, 96, 97]),
        18 => rng.between(1, 300),
        _ => rng.between(1, 20),
    };
    shape(rng, n)
}

/// A size of one tree.
pub fn small(rng: &mut Rng) -> Shape {
    let n = rng.between(1, 6);
    shape(rng, n)
}

/// A size of several near blocks.
pub fn tall(rng: &mut Rng) -> Shape {
    let n = rng.pick(&[1_025, 1_030, 1_030, 1_056, 1_057, 1_100, 2_049]);
    shape(rng, n)
}

fn shape(rng: &mut Rng, n: u64) -> Shape {
    let cpus = match rng.below(8) {
        0 => 1,
        1..=3 => rng.between(1, 4),
        4..=5 => rng.between(1, 8),
        6 => rng.between(1, 64),
        _ => 2,
    };
    Shape {
        n: n as usize,
        cpus: cpus as usize,
    }
}

/// A few calls on the largest zone.
pub fn largest(player: &mut Player) -> Played {
    let shape = Shape {
        n: 65_536,
        cpus: 64,
    };
    let tables = if player.rng.percent(50) {
        states::fresh(shape)
    } else {
        states::settled(&mut player.rng, shape)
    };
    player.load(tables);
    player.call(Call::Settled, &mut Slot::new())?;
    for _ in 0..60 {
        let number = player.rng.between(1, 29) as u8;
        let mut slot = Slot::of(states::record(&mut player.rng, shape, number));
        let call = match number {
            22..=26 => Call::CreateStep { n: 65_536 },
            27..=29 => Call::OpenStep,
            _ => Call::Step,
        };
        player.call(call, &mut slot)?;
        if player.rng.percent(50) && !slot.idle() {
            player.call(call, &mut slot)?;
        }
    }
    for order in [0, 3, 6, 9] {
        let mut slot = Slot::new();
        let (cpu, fuel) = (63, u64::MAX);
        player.call(Call::Get { cpu, order }, &mut slot)?;
        player.call(Call::Run { fuel }, &mut slot)?;
        player.call(Call::GetRun { cpu, order, fuel }, &mut slot)?;
    }
    Ok(())
}
