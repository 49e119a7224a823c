//! Beginnings with any numbers.

use crate::call::Call;
use crate::player::{Played, Player, Slot};
use crate::scenes::sizes;
use crate::states;

pub fn numbers(player: &mut Player) -> Played {
    let shape = sizes::any(&mut player.rng);
    let tables = states::settled(&mut player.rng, shape);
    player.load(tables);
    for _ in 0..80 {
        let rng = &mut player.rng;
        let cpus = shape.cpus as u64;
        let frames = 512 * shape.n as u64;
        let any = states::any(rng);
        let below = rng.below(cpus);
        let cpu = rng.pick(&[
            0,
            below,
            below,
            below,
            cpus - 1,
            cpus,
            cpus + 1,
            1 << 32,
            any,
        ]);
        let run = states::run_order(rng);
        let any_order = states::order(rng);
        let known = rng.pick(&[run, any_order]);
        let unknown = rng.pick(&[7, 8, 10, 1 << 32, (1 << 32) + 9, any, u64::MAX]);
        let order = rng.pick(&[known, known, unknown]);
        let base = rng.below(frames);
        let aligned = base >> known << known;
        let inside = aligned + (1 << known) / 2;
        let frame = rng.pick(&[
            0,
            base,
            base,
            aligned,
            aligned,
            inside,
            inside,
            frames - 1,
            frames,
            frames + 1,
            frames + 512,
            any,
            u64::MAX,
            u64::MAX - 511,
            1 << 32,
        ]);
        let call = if rng.percent(40) {
            Call::Get { cpu, order }
        } else {
            Call::Put { cpu, frame, order }
        };
        let call = if rng.percent(50) {
            call.in_one(states::fuel(rng))
        } else {
            call
        };
        let mut slot = Slot::with(vec![states::any(rng), states::any(rng)]);
        let begun = player.call(call, &mut slot)?;
        if begun.number == 1 && player.rng.percent(30) {
            player.finish(&mut slot)?;
        }
    }
    Ok(())
}
