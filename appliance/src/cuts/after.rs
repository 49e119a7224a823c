//! A few gets and puts on a zone that was opened, and its close.

use lovarntek::Order;

use super::whole::{get, put};
use crate::block::Block;
use crate::check;
use crate::frames::Taken;
use crate::layout;
use crate::life;
use crate::state::State;
use reference::rng::Rng;

/// Takes two blocks, puts one of them and one held block back, and closes the zone.
pub fn play(
    state: &mut State,
    expected: &Taken,
    held: &[Block],
    rng: &mut Rng,
) -> Result<(), String> {
    let mut expected = expected.clone();
    let cpus = state.tables().cpus.len() as u64;
    let orders = [rng.pick(&Order::ALL), rng.pick(&Order::ALL)];
    for (position, order) in orders.into_iter().enumerate() {
        let Some(block) = get(state, rng.below(cpus), order)? else {
            continue;
        };
        expected.add(block)?;
        if position == 1 {
            put(state, rng.below(cpus), block)?;
            expected.remove(block);
        }
    }
    if !held.is_empty() {
        let block = rng.pick(held);
        put(state, rng.below(cpus), block)?;
        expected.remove(block);
    }
    let tables = &mut state.tables();
    check::at_rest(tables, &expected)?;
    life::close(tables)?;
    check::header(tables, layout::clean(tables.children.len() as u64))
}
