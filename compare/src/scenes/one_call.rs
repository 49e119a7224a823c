//! Gets and puts begun and run in one call, on tables that need not fit together.

use crate::call::Call;
use crate::player::{Played, Player, Slot};
use crate::scenes::sizes;
use crate::states;

/// Out of steps, an operation goes on by single steps or by a run, or is left.
pub fn any(player: &mut Player) -> Played {
    let shape = sizes::any(&mut player.rng);
    for _ in 0..6 {
        let mut tables = match player.rng.below(4) {
            0 => states::settled(&mut player.rng, shape),
            1 => states::short(&mut player.rng, shape),
            _ => states::loose(&mut player.rng, shape),
        };
        if player.rng.percent(60) {
            let share = player.rng.pick(&[5, 20, 60]);
            states::damage(&mut player.rng, &mut tables, shape, share);
        }
        player.load(tables);
        for _ in 0..12 {
            let rng = &mut player.rng;
            let cpu = rng.below(shape.cpus as u64);
            let order = states::order(rng);
            let frame = rng.below(512 * shape.n as u64) >> order << order;
            let call = rng.pick(&[Call::Get { cpu, order }, Call::Put { cpu, frame, order }]);
            let call = call.in_one(states::fuel(rng));
            let mut slot = Slot::with(vec![states::any(rng), states::any(rng)]);
            let begun = player.call(call, &mut slot)?;
            match player.rng.below(3) {
                0 if begun.number == 1 => {
                    player.finish(&mut slot)?;
                }
                1 if begun.number == 1 => {
                    let fuel = u64::MAX;
                    player.call(Call::Run { fuel }, &mut slot)?;
                }
                _ => {}
            }
        }
    }
    Ok(())
}
