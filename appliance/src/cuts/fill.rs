//! How full a zone is when its script begins.

use lovarntek::Order;

use super::player::Player;
use super::whole;
use crate::block::HUGE;

/// A fill state.
#[derive(Clone, Copy, Debug, PartialEq, Eq)]
pub enum Fill {
    /// Nothing is taken.
    Fresh,
    /// Blocks of all orders, about half of the frames.
    Half,
    /// Every frame is taken.
    Full,
    /// Every frame was taken, and half of the blocks were put back.
    Fragments,
}

impl Fill {
    /// Every fill state.
    pub const ALL: [Fill; 4] = [Fill::Fresh, Fill::Half, Fill::Full, Fill::Fragments];

    /// The state's name.
    pub const fn name(self) -> &'static str {
        match self {
            Fill::Fresh => "fresh",
            Fill::Half => "half full",
            Fill::Full => "full",
            Fill::Fragments => "in fragments",
        }
    }

    /// Fills a created zone.
    pub fn fill(self, player: &mut Player) -> Result<(), String> {
        let frames = player.n * HUGE;
        match self {
            Fill::Fresh => Ok(()),
            Fill::Half => take(player, frames / 2),
            Fill::Full => take(player, frames),
            Fill::Fragments => {
                take(player, frames)?;
                give_back(player, player.owners.held.len() / 2)
            }
        }
    }
}

/// Takes blocks of any order, and smaller ones where there is no room, until so many frames are taken.
fn take(player: &mut Player, frames: u64) -> Result<(), String> {
    let mut taken = 0;
    let mut choices: &[Order] = &Order::ALL;
    while taken < frames {
        let cpu = player.rng.below(player.cpus);
        let order = player.rng.pick(choices);
        if let Some(block) = whole::get(&mut player.state, cpu, order)? {
            player.owners.held.push(block);
            taken += order.frames();
        } else if order == Order::Base {
            return Err(format!("no room, with {taken} frames of {frames} taken"));
        } else {
            let smaller = choices.iter().position(|&choice| choice == order);
            choices = &choices[..smaller.unwrap_or(1)];
        }
    }
    Ok(())
}

/// Puts so many of the held blocks back.
fn give_back(player: &mut Player, blocks: usize) -> Result<(), String> {
    for _ in 0..blocks {
        let cpu = player.rng.below(player.cpus);
        let position = player.rng.index(player.owners.held.len());
        let block = player.owners.held.swap_remove(position);
        whole::put(&mut player.state, cpu, block)?;
    }
    Ok(())
}
