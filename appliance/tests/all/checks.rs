//! The checks see what is wrong in the tables.

use appliance::block::Block;
use appliance::check;
use appliance::frames::Taken;
use appliance::life;
use appliance::state::{self, State};
use lovarntek::Order;

const N: u64 = 33;

/// A zone of two trees with three blocks taken, opened as after a cut, and the blocks.
fn opened() -> (State, Taken) {
    let mut state = state::created(N, 2).unwrap();
    let blocks = [Order::Base, Order::Run8, Order::Huge].map(|order| {
        let mut record = [0; 2];
        let begun = state.tables().get(&mut record, 1, order.number());
        let ran = state.tables().run(&mut record, u64::MAX);
        assert_eq!((begun.number, ran.number), (1, 0));
        Block {
            frame: ran.frame,
            order,
        }
    });
    life::open_all(&mut state.tables()).unwrap();
    (state, Taken::of(N, blocks).unwrap())
}

/// What the check of an opened zone says after a change.
fn after(change: impl FnOnce(&mut State)) -> String {
    let (mut state, expected) = opened();
    change(&mut state);
    check::opened(&state.tables(), &expected).unwrap_err()
}

#[test]
fn an_opened_zone_passes() {
    let (mut state, expected) = opened();
    assert_eq!(check::opened(&state.tables(), &expected), Ok(()));
    assert_eq!(check::at_rest(&state.tables(), &expected), Ok(()));
    assert_eq!(life::settled(&mut state.tables()), Ok(()));
}

#[test]
fn bits_are_seen() {
    let cleared = after(|state| state.tables().words[0] &= !1);
    assert_eq!(cleared, "frame 0: free, expected taken");
    let set = after(|state| state.tables().words[263] |= 1 << 63);
    assert_eq!(set, "frame 16895: taken, expected free");
    let below_a_flag = after(|state| state.tables().words[8] |= 1);
    assert_eq!(
        below_a_flag,
        "child 1: zero bits below its flag: 511, expected 512"
    );
}

#[test]
fn children_are_seen() {
    let lower = after(|state| state.tables().children[32] -= 1);
    assert_eq!(lower, "child 32: its entry: 511, expected 512");
    let layout = after(|state| state.tables().children[32] |= 1 << 10);
    assert_eq!(layout, "child 32: its entry: 1536, expected 512");
    let flag_cleared = after(|state| state.tables().children[1] = 512);
    assert_eq!(flag_cleared, "frame 512: free, expected taken");
    let flag_set = after(|state| state.tables().children[2] = 1 << 15);
    assert_eq!(flag_set, "frame 1024: taken, expected free");
    let counted = after(|state| state.tables().children[1] |= 1);
    assert_eq!(counted, "child 1: its entry: 32769, expected 32768");
}

#[test]
fn eight_words_are_not_a_huge_frame() {
    let bits = after(|state| {
        state.tables().children[1] = 0;
        state.tables().words[8..16].fill(u64::MAX);
    });
    assert_eq!(
        bits,
        "child 1: whether it is taken as one differs from the owners' lists"
    );
}

#[test]
fn trees_are_seen() {
    let flag = after(|state| state.tables().trees[1] |= 1 << 15);
    assert_eq!(flag, "tree 1: its entry: 33280, expected 512");
    let count = after(|state| state.tables().trees[0] += 1);
    assert_eq!(count, "tree 0: its entry: 15864, expected 15863");
}

#[test]
fn cpus_and_the_header_are_seen() {
    let cpu = after(|state| state.tables().cpus[1] = 1);
    assert_eq!(cpu, "CPU 1: 0x0000000000000001, expected absent");
    let header = after(|state| state.tables().header[0] ^= 3 << 42);
    assert!(header.starts_with("header: 0x4c46180042000000"), "{header}");
}

#[test]
fn counters_at_rest_are_seen() {
    let (mut state, expected) = opened();
    state.tables().cpus[0] = (1 << 63) | (1 << 52) | (2 << 32);
    state.tables().trees[1] -= 2;
    assert_eq!(check::at_rest(&state.tables(), &expected), Ok(()));
    state.tables().cpus[0] += 1 << 32;
    let told = check::at_rest(&state.tables(), &expected).unwrap_err();
    assert_eq!(told, "tree 1: its counters: 513, expected 512");
}

#[test]
fn blocks_do_not_overlap() {
    let run = |frame, order| Block { frame, order };
    let twice = [run(8, Order::Run8), run(15, Order::Base)];
    assert!(Taken::of(1, twice).unwrap_err().contains("two blocks"));
    assert!(Taken::of(1, [run(512, Order::Base)]).is_err());
    assert!(Taken::of(1, [run(4, Order::Run8)]).is_err());
    assert!(Taken::of(2, [run(0, Order::Huge), run(512, Order::Huge)]).is_ok());
}
