//! Runs: where they are taken, what they claim, and how they go back.

use crate::common::Packed;
use reference::answer::{Answer, Refusal};
use reference::operation::Operation;
use reference::session::output_of;

const PRESENT: u64 = 1 << 63;
const RUNS: std::ops::RangeInclusive<u64> = 1..=6;

/// Makes a number of steps of an operation under way.
fn steps(packed: &mut Packed, mut answer: Answer<Operation>, count: usize) -> Answer<Operation> {
    for _ in 0..count {
        answer = packed.tables().step(answer.operation());
    }
    answer
}

fn output(script: &str) -> Vec<String> {
    let printed = String::from_utf8(output_of(script.as_bytes(), None)).unwrap();
    printed.lines().skip(1).map(String::from).collect()
}

/// One word's bits for every order, and the tables after each store.
#[test]
fn one_store_takes_a_run_and_one_gives_it_back() {
    for order in RUNS {
        let size = 1u16 << order;
        let mut packed = Packed::created(1, 1);
        let begun = packed.tables().begin_get(0, order);
        // Look, three passes, write.
        let claimed = steps(&mut packed, begun, 5);
        assert_eq!(packed.cpus, [PRESENT | u64::from(512 - size) << 32]);
        let lowered = steps(&mut packed, claimed, 1);
        assert_eq!((packed.children[0], packed.words[0]), (512 - size, 0));
        let taken = steps(&mut packed, lowered, 1);
        assert_eq!(packed.words[0].trailing_ones(), size.into());
        assert_eq!(packed.words[0].count_ones(), size.into());
        assert_eq!(steps(&mut packed, taken, 1), Answer::Done(0));

        let begun = packed.tables().begin_put(0, 0, order);
        let cleared = steps(&mut packed, begun, 1);
        assert_eq!((packed.children[0], packed.words[0]), (512 - size, 0));
        let raised = steps(&mut packed, cleared, 1);
        assert_eq!(packed.children, [512]);
        assert_eq!(steps(&mut packed, raised, 1), Answer::Done(0));
        assert_eq!(packed.cpus, [PRESENT | 512 << 32]);
        assert_eq!(packed.tables().close(), Answer::Done(0));
    }
}

/// The tree's count rises by the run where another CPU holds nothing.
#[test]
fn a_run_goes_back_to_its_tree() {
    for order in RUNS {
        let mut packed = Packed::created(33, 2);
        assert_eq!(packed.get(0, order), Answer::Done(0));
        assert_eq!(packed.put(1, 0, order), Answer::Done(0));
        assert_eq!(packed.trees, [0x8000 | 1 << order, 512]);
        assert_eq!(packed.tables().close(), Answer::Done(0));
    }
}

/// The lowest aligned run is taken, not the lowest clear bits.
#[test]
fn the_lowest_fitting_run() {
    for (word, order, frame) in [
        (0b1001, 1, 4),
        (0b0011_1100, 1, 0),
        (0b1101, 1, 4),
        (0x0101_0101_0101_0101, 2, 4),
        (0x0000_0000_00FF_FF01, 3, 24),
        (1 << 20, 4, 0),
        (1, 4, 16),
        (1, 5, 32),
        (1 << 63, 5, 0),
        (0x0000_0001_8000_0000, 5, 64),
        (1 << 63, 6, 64),
        (0, 6, 0),
    ] {
        let mut packed = Packed::created(1, 1);
        packed.words[0] = word;
        assert_eq!(packed.get(0, order), Answer::Done(frame), "{word:#x}");
        let size = 1 << order;
        let run = (u64::MAX >> (64 - size)) << (frame % 64);
        let index = frame as usize / 64;
        let before = if index == 0 { word } else { 0 };
        assert_eq!(packed.words[index], before | run);
    }
}

/// A short child is passed; counts below the run never lead to its words.
#[test]
fn a_count_below_the_run_is_passed() {
    for order in RUNS {
        let mut packed = Packed::created(2, 1);
        packed.children[0] = (1 << order) - 1;
        let begun = packed.tables().begin_get(0, order);
        // Look, three passes, write, child 0, child 1, word 0, last.
        assert_eq!(steps(&mut packed, begun, 9), Answer::Done(512));
        assert_eq!(packed.words[..8], [0; 8]);
    }
}

/// Enough frames are free, but no run is: the count goes back, and the next child is searched.
#[test]
fn words_without_a_fitting_run_give_the_count_back() {
    for order in RUNS {
        let mut packed = Packed::created(2, 1);
        packed.words[..8].fill(0x5555_5555_5555_5555);
        packed.children[0] = 256;
        packed.trees[0] = 768;
        let begun = packed.tables().begin_get(0, order);
        // Look, three passes, write, child 0.
        let lowered = steps(&mut packed, begun, 6);
        assert_eq!(packed.children, [256 - (1 << order), 512]);
        let passed = steps(&mut packed, lowered, 8);
        let given = steps(&mut packed, passed, 1);
        assert_eq!(packed.children, [256, 512]);
        // Child 1, word 0, last.
        assert_eq!(steps(&mut packed, given, 3), Answer::Done(512));
    }
}

/// The claim of a failed search goes back to the tree, and all counts settle.
#[test]
fn a_run_without_room_leaves_the_counts() {
    for order in RUNS {
        let mut packed = Packed::created(1, 1);
        packed.words.fill(0xAAAA_AAAA_AAAA_AAAA);
        packed.children[0] = 256;
        packed.trees[0] = 256;
        let no_room = Answer::Refused(Refusal::NoRoom);
        assert_eq!(packed.get(0, order), no_room);
        assert_eq!((packed.trees[0], packed.cpus[0]), (256, 0));
        assert_eq!(packed.get(0, 0), Answer::Done(0));
        assert_eq!(packed.tables().close(), Answer::Done(0));
    }
}

/// Parts of a run, and runs of neighbours taken one by one.
#[test]
fn puts_of_other_sizes_than_the_get() {
    let mut packed = Packed::created(1, 1);
    assert_eq!(packed.get(0, 3), Answer::Done(0));
    assert_eq!(packed.put(0, 4, 1), Answer::Done(4));
    assert_eq!(packed.words[0], 0b1100_1111);
    assert_eq!(packed.put(0, 0, 3).number(), 6);
    assert_eq!(packed.put(0, 4, 2).number(), 6);
    assert_eq!(packed.put(0, 0, 2), Answer::Done(0));
    assert_eq!(packed.put(0, 6, 0), Answer::Done(6));
    assert_eq!(packed.put(0, 6, 1).number(), 6);
    assert_eq!(packed.put(0, 7, 0), Answer::Done(7));
    assert_eq!((packed.words[0], packed.children[0]), (0, 512));
    for frame in 0..4 {
        assert_eq!(packed.get(0, 0), Answer::Done(frame));
    }
    assert_eq!(packed.put(0, 0, 2), Answer::Done(0));
    assert_eq!(packed.tables().close(), Answer::Done(0));
    assert_eq!(packed.words[0], 0);
}

#[test]
fn a_zone_filled_by_runs() {
    let mut input = String::from("z 8 1\n");
    input.push_str(&"g 0 6\n".repeat(65));
    input.push_str("p 0 32 5\np 0 0 5\np 0 0 5\np 0 0 6\ng 0 6\n");
    let answers = output(&input);
    for (number, answer) in answers[..64].iter().enumerate() {
        assert!(answer.starts_with(&format!("0 {} ", 64 * number)));
    }
    // Look, take, fill, two of the release, three passes, No room.
    assert_eq!(answers[64], "2 0 9");
    assert_eq!(
        answers[65..],
        ["0 32 4", "0 0 4", "6 0 1", "6 0 1", "0 0 8"]
    );
}

#[test]
fn a_zone_of_every_second_frame() {
    let mut input = String::from("z 1 1\n");
    input.push_str(&"g 0 0\n".repeat(512));
    for frame in (0..512).step_by(2) {
        input.push_str(&format!("p 0 {frame} 0\n"));
    }
    input.push_str("g 0 1\ng 0 0\n");
    let answers = output(&input);
    // Claim, child, eight words, the count back, the claim back, two of the release, three passes of which the last takes the tree,
    // and from its write on the same again; No room.
    let search = 1 + 1 + 8 + 1 + 1 + 2;
    assert_eq!(answers[768], format!("2 0 {}", search + 3 + search + 1));
    assert_eq!(answers[769], "0 0 8");
}
