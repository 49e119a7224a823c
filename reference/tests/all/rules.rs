//! Steps that only interleavings or odd tables reach.

use crate::common::Packed;
use reference::answer::Answer;
use reference::get::{Get, Stage};
use reference::operation::{Operation, Order};

const PRESENT: u64 = 1 << 63;

fn stage(answer: Answer<Operation>) -> Stage {
    match answer.operation() {
        Operation::Get(Get { stage, .. }) => stage,
        other => panic!("{other:?} is no get under way"),
    }
}

/// Makes a number of steps of an operation under way.
fn steps(packed: &mut Packed, mut answer: Answer<Operation>, count: usize) -> Answer<Operation> {
    for _ in 0..count {
        answer = packed.tables().step(answer.operation());
    }
    answer
}

#[test]
fn eight_full_words_give_the_count_back() {
    let mut packed = Packed::created(2, 1);
    packed.words[..8].fill(u64::MAX);
    packed.children[0] = 1;
    let begun = packed.tables().begin_get(0, 0);
    // Look, three passes, write, child 0.
    let lowered = steps(&mut packed, begun, 6);
    assert_eq!(packed.children[0], 0);
    let full = steps(&mut packed, lowered, 8);
    assert!(matches!(stage(full), Stage::GiveBack(_)));
    let given = steps(&mut packed, full, 1);
    assert_eq!(packed.children[0], 1);
    assert_eq!(steps(&mut packed, given, 3), Answer::Done(512));
}

/// An entry that is short: look, take, fill, then the claim.
#[test]
fn short_entry_is_filled_from_the_tree() {
    let mut packed = Packed::created(1, 2);
    packed.trees[0] = 0x8000 | 512;
    packed.cpus[0] = PRESENT;
    let begun = packed.tables().begin_get(0, 9);
    let looked = steps(&mut packed, begun, 1);
    assert_eq!(stage(looked), Stage::TakeCount { tree: 0 });
    let taken = steps(&mut packed, looked, 1);
    assert_eq!(packed.trees[0], 0x8000);
    let filled = steps(&mut packed, taken, 1);
    assert_eq!(packed.cpus[0], PRESENT | 512 << 32);
    let claimed = steps(&mut packed, filled, 1);
    assert_eq!(packed.cpus[0], PRESENT);
    assert_eq!(steps(&mut packed, claimed, 2), Answer::Done(0));
}

/// The entry is stolen while the tree's count is in hand.
#[test]
fn hand_of_a_stolen_entry_goes_back() {
    let mut packed = Packed::created(1, 2);
    packed.trees[0] = 0x8000 | 5;
    packed.cpus[0] = PRESENT;
    let begun = packed.tables().begin_get(0, 9);
    let in_hand = steps(&mut packed, begun, 2);
    assert_eq!(stage(in_hand), Stage::FillEntry { tree: 0, hand: 5 });
    packed.cpus[0] = 0;
    let before = packed.clone();
    let looked = steps(&mut packed, in_hand, 1);
    assert_eq!(packed, before);
    let returned = steps(&mut packed, looked, 1);
    assert_eq!(packed.trees[0], 0x8000 | 5, "r stays");
    assert_eq!(stage(returned), Stage::LookAgain { tree: 0 });
    let before = packed.clone();
    let released = steps(&mut packed, returned, 1);
    assert_eq!(packed, before, "there is no second step");
    assert_eq!(stage(released), Stage::TryPlace);
}

/// The entry is stolen between the claim and the last step.
#[test]
fn stolen_entry_gets_no_start_child() {
    let mut packed = Packed::created(2, 1);
    let begun = packed.tables().begin_get(0, 9);
    let taken = steps(&mut packed, begun, 6);
    assert_eq!(stage(taken), Stage::KeepStart { frame: 0 });
    packed.cpus[0] = 0;
    let before = packed.clone();
    assert_eq!(steps(&mut packed, taken, 1), Answer::Done(0));
    assert_eq!(packed, before);
}

/// The near pass keeps to its block and skips its own tree.
#[test]
fn near_pass_of_the_second_block() {
    let mut packed = Packed::created(35 * 32, 1);
    packed.trees[33] = 0x8000;
    packed.cpus[0] = PRESENT | 33 << 52;
    packed.trees[32] = 2_047;
    packed.trees[34] = 14_337;
    let begun = packed.tables().begin_get(0, 0);
    // Look, take, fill, two of the release, tree 32, tree 34.
    let answer = steps(&mut packed, begun, 7);
    let hand = 14_337;
    assert_eq!(stage(answer), Stage::WriteEntry { tree: 34, hand });
    assert_eq!(packed.trees[32..], [2_047, 0, 0x8000]);
}

#[test]
fn finished_record_is_one_value() {
    let mut packed = Packed::created(1, 1);
    let done = packed.get(0, 0);
    assert_eq!(done.operation(), Operation::Finished);
    let refused = packed.tables().step(done.operation());
    assert_eq!(refused.number(), 11);
    assert_eq!(refused.operation(), Operation::Finished);
    assert_eq!(
        packed.tables().begin_get(1, 0).operation(),
        Operation::Finished
    );
}

#[test]
fn open_after_close_trusts_the_children() {
    let mut packed = Packed::created(33, 2);
    assert_eq!(packed.get(0, 0), Answer::Done(0));
    assert_eq!(packed.get(1, 9), Answer::Done(32 * 512));
    assert_eq!(packed.tables().close(), Answer::Done(0));
    packed.trees.fill(0xFFFF);
    packed.cpus.fill(u64::MAX);
    assert_eq!(packed.open(), (0, 1 + 2 + 2));
    assert_eq!(packed.trees, [16_383, 0]);
    assert_eq!(packed.cpus, [0, 0]);
    assert_eq!(packed.tables().close(), Answer::Done(0));
}

#[test]
fn put_leaves_the_huge_order_alone() {
    let mut packed = Packed::created(1, 1);
    assert_eq!(packed.get(0, 9), Answer::Done(0));
    let step = Operation::Put(reference::put::Put::new(0, 0, Order::HUGE));
    let looked = packed.tables().step(step);
    assert_eq!(packed.children, [0x0200]);
    assert_eq!(steps(&mut packed, looked, 1), Answer::Done(0));
    assert_eq!(packed.cpus, [PRESENT | 512 << 32]);
}
