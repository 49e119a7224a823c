//! A zone in tables of the program's own, which can be copied and cut.

use lovarntek::calls::Tables;
use reference::rng::Rng;

use crate::junk::Junk;
use crate::layout;
use crate::life;

/// A zone in vectors.
pub type State = lovarntek::Zone;

/// A created zone of `n` huge frames, all free.
pub fn created(n: u64, cpus: u64) -> Result<State, String> {
    let mut state = State::from_tables(
        vec![0],
        vec![0; n as usize * 8],
        vec![0; n as usize],
        vec![0; layout::trees(n)],
        vec![0; cpus as usize],
    );
    life::create(&mut state.tables(), n)?;
    Ok(state)
}

/// What a cut leaves: header, words and children as they are, junk in trees and CPUs.
pub fn cut(tables: &Tables<'_>, junk: Junk, rng: &mut Rng) -> State {
    let mut trees = tables.trees.to_vec();
    let mut cpus = tables.cpus.to_vec();
    junk.fill(&mut trees, &mut cpus, rng);
    State::from_tables(
        tables.header.to_vec(),
        tables.words.to_vec(),
        tables.children.to_vec(),
        trees,
        cpus,
    )
}
