//! What a cut leaves and what it does not.

use appliance::junk::Junk;
use appliance::state::{self, State};
use reference::rng::Rng;

fn cut(junk: Junk) -> (State, State) {
    let mut state = state::created(33, 3).unwrap();
    let cut = state::cut(&state.tables(), junk, &mut Rng::new(1, 0));
    (state, cut)
}

#[test]
fn header_words_and_children_survive() {
    for junk in Junk::ALL {
        let (mut state, mut cut) = cut(junk);
        let (before, after) = (state.tables(), cut.tables());
        assert_eq!(before.header, after.header);
        assert_eq!(before.words, after.words);
        assert_eq!(before.children, after.children);
    }
}

#[test]
fn trees_and_cpus_hold_junk() {
    let (_, mut zeros) = cut(Junk::Zeros);
    assert_eq!(&*zeros.tables().trees, [0; 2]);
    assert_eq!(&*zeros.tables().cpus, [0; 3]);
    let (_, mut ones) = cut(Junk::Ones);
    assert_eq!(&*ones.tables().trees, [u16::MAX; 2]);
    assert_eq!(&*ones.tables().cpus, [u64::MAX; 3]);
    let (state, stale) = cut(Junk::Stale);
    assert_eq!(stale, state);
    let (mut state, mut random) = cut(Junk::Random);
    assert_ne!(random.tables().trees, state.tables().trees);
    assert!(random.tables().cpus.iter().all(|&cpu| cpu != 0));
}
