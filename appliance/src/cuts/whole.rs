//! Gets and puts, run to their end.

use lovarntek::Order;

use crate::block::Block;
use crate::state::State;

/// A get, run to its end: the block, or none where there is no room.
pub fn get(state: &mut State, cpu: u64, order: Order) -> Result<Option<Block>, String> {
    let mut record = [0; 2];
    let begun = state.tables().get(&mut record, cpu, order.number()).number;
    let ran = state.tables().run(&mut record, u64::MAX);
    match (begun, ran.number) {
        (1, 0) => Ok(Some(Block {
            frame: ran.frame,
            order,
        })),
        (1, 2) => Ok(None),
        (begun, number) => Err(format!(
            "get of order {}: answers {begun}, then {number}",
            order.number()
        )),
    }
}

/// A put, run to its end, which must be done.
pub fn put(state: &mut State, cpu: u64, block: Block) -> Result<(), String> {
    let mut record = [0; 2];
    let mut tables = state.tables();
    let begun = tables
        .put(&mut record, cpu, block.frame, block.order.number())
        .number;
    let number = tables.run(&mut record, u64::MAX).number;
    match (begun, number) {
        (1, 0) => Ok(()),
        _ => Err(format!(
            "put of the {block}: answers {begun}, then {number}"
        )),
    }
}
