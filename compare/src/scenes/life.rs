//! Create, open and close, with cuts.

use reference::layout::Header;

use crate::call::Call;
use crate::player::{Played, Player, Slot};
use crate::scenes::sizes;
use crate::states;
use crate::translate::Shape;

/// A create, gets and puts, a close, opens: each with cuts in between.
pub fn cycle(player: &mut Player) -> Played {
    let shape = sizes::small(&mut player.rng);
    let mut tables = states::loose(&mut player.rng, shape);
    states::damage(&mut player.rng, &mut tables, shape, 50);
    tables.header = vec![states::any(&mut player.rng)];
    player.load(tables);
    create(player, shape)?;
    for _ in 0..3 {
        let cpu = player.rng.below(shape.cpus as u64);
        let order = states::order(&mut player.rng);
        let mut slot = Slot::new();
        player.call(Call::Get { cpu, order }, &mut slot)?;
        let steps = player.rng.pick(&[3, 6, 9, 30]);
        for _ in 0..steps {
            if !slot.idle() {
                player.call(Call::Step, &mut slot)?;
            }
        }
    }
    if player.rng.percent(50) {
        player.call(Call::Close, &mut Slot::new())?;
    }
    cut(player);
    open(player, shape)
}

fn cut(player: &mut Player) {
    player
        .pair
        .edit(|tables| states::cut(&mut player.rng, tables));
}

/// The steps of an operation until a cut; one without a cut is the last of a few.
fn cuts(player: &mut Player, steps: u64) -> Vec<u64> {
    let count = player.rng.below(4);
    (0..count)
        .map(|_| player.rng.below(steps))
        .chain([u64::MAX])
        .collect()
}

/// A create step by step; cut and begun again at times.
fn create(player: &mut Player, shape: Shape) -> Played {
    let n = shape.n as u64;
    for until in cuts(player, 9 * n + shape.cpus as u64) {
        let mut slot = Slot::new();
        player.call(Call::Create { n }, &mut slot)?;
        let mut steps = 0;
        while !slot.idle() && steps < until {
            player.call(Call::CreateStep { n }, &mut slot)?;
            steps += 1;
        }
        if !slot.idle() {
            cut(player);
            player.cover.note("cut: inside a create");
            player.call(Call::Open, &mut Slot::new())?;
        }
    }
    Ok(())
}

/// An open step by step; cut and begun again at times.
fn open(player: &mut Player, shape: Shape) -> Played {
    for until in cuts(player, (shape.n + shape.cpus) as u64) {
        let mut slot = Slot::new();
        player.call(Call::Open, &mut slot)?;
        let mut steps = 0;
        while !slot.idle() && steps < until {
            player.call(Call::OpenStep, &mut slot)?;
            steps += 1;
        }
        if !slot.idle() {
            cut(player);
            player.cover.note("cut: inside an open");
        }
    }
    Ok(())
}

/// Opens of zones with one defect or none, and of clean zones; tables changed during the open.
pub fn opens(player: &mut Player) -> Played {
    let shape = sizes::small(&mut player.rng);
    for _ in 0..20 {
        let mut tables = states::loose(&mut player.rng, shape);
        if player.rng.percent(45) {
            sound(&mut tables.words, &tables.children);
        }
        if player.rng.percent(40) {
            tables.header = vec![Header::clean(shape.n).join()];
        }
        if player.rng.percent(15) {
            states::damage(&mut player.rng, &mut tables, shape, 20);
        }
        player.load(tables);
        cut(player);
        let mut slot = Slot::new();
        player.call(Call::Open, &mut slot)?;
        while !slot.idle() {
            if player.rng.percent(4) {
                player.pair.edit(|tables| {
                    let huge = player.rng.below(shape.n as u64) as usize;
                    tables.children[huge] = states::bad_child(&mut player.rng);
                });
            }
            player.call(Call::OpenStep, &mut slot)?;
        }
    }
    Ok(())
}

/// Clears the fields of children that are taken as a whole.
fn sound(words: &mut [u64], children: &[u16]) {
    for (huge, &child) in children.iter().enumerate() {
        if child == 0x8000 {
            words[8 * huge..][..8].fill(0);
        }
    }
}

/// Closes of settled zones, and of zones with one or two defects.
pub fn closes(player: &mut Player) -> Played {
    let shape = sizes::any(&mut player.rng);
    for _ in 0..12 {
        let mut tables = states::settled(&mut player.rng, shape);
        let rng = &mut player.rng;
        let defects = rng.below(3);
        for _ in 0..defects {
            let huge = rng.below(shape.n as u64) as usize;
            let tree = rng.below(shape.trees() as u64) as usize;
            let cpu = rng.below(shape.cpus as u64) as usize;
            let capacity = states::capacity(shape, tree);
            match rng.below(10) {
                0 => tables.children[huge] = states::bad_child(rng),
                1 => tables.words[8 * huge + rng.below(8) as usize] ^= 1 << rng.below(64),
                2 => {
                    tables.children[huge] = 0x8000;
                    tables.words[8 * huge + rng.below(8) as usize] |= 1 << rng.below(64);
                }
                3 => tables.trees[tree] ^= 1 << rng.below(15),
                4 => tables.trees[tree] ^= 0x8000,
                5 => tables.trees[tree] = states::bad_tree(rng, capacity),
                6 => tables.cpus[cpu] = states::bad_cpu(rng, shape),
                7 | 8 => tables.cpus[cpu] = states::cpu_entry(tree, 0, capacity),
                _ => tables.children[huge] = tables.children[huge].saturating_sub(1),
            }
        }
        player.load(tables);
        player.call(Call::Settled, &mut Slot::new())?;
        player.call(Call::Close, &mut Slot::new())?;
        player.call(Call::Settled, &mut Slot::new())?;
    }
    Ok(())
}
