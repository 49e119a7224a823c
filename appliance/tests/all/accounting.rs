//! Taken frames are accounted for by the journal, or a fault.

use appliance::block::Block;
use appliance::frames::Taken;
use appliance::kills::account::account;
use appliance::kills::journal::{Doubt, Reading};
use lovarntek::Order::{self, Base, Huge, Run2, Run4, Run64};

const N: u64 = 2;

fn block(frame: u64, order: Order) -> Block {
    Block { frame, order }
}

/// Accounts for taken blocks: the frames lost by gets and by puts, or what differs.
fn accounted(
    taken: &[Block],
    held: &[Block],
    doubts: &[Doubt],
) -> Result<(Vec<Block>, Vec<Block>), String> {
    let lost = block(1023, Base);
    let found = Taken::of(N, taken.iter().copied().chain([lost]))?;
    let reading = Reading {
        held: held.to_vec(),
        lost: vec![lost],
        doubts: doubts.to_vec(),
    };
    account(&reading, &found).map(|(lost, _)| (lost.gets, lost.puts))
}

#[test]
fn held_blocks_are_taken() {
    let held = [block(4, Run4), block(64, Run64)];
    assert_eq!(accounted(&held, &held, &[]), Ok((vec![], vec![])));
    let told = accounted(&[block(4, Run4)], &held, &[]).unwrap_err();
    assert_eq!(told, "frame 64: free, expected taken");
    let told = accounted(&held, &[held[0], block(6, Base)], &[]).unwrap_err();
    assert!(told.contains("two blocks"), "{told}");
}

#[test]
fn each_doubt_has_one_block_at_most() {
    let get = [Doubt::Get(Run2)];
    assert_eq!(accounted(&[], &[], &get), Ok((vec![], vec![])));
    let one = block(2, Run2);
    assert_eq!(accounted(&[one], &[], &get), Ok((vec![one], vec![])));
    assert!(accounted(&[one, block(8, Run2)], &[], &get).is_err());
    assert!(accounted(&[block(2, Base)], &[], &get).is_err());
    assert!(accounted(&[block(1, Base), block(2, Base)], &[], &get).is_err());
    assert!(accounted(&[one], &[], &[]).is_err());
}

#[test]
fn a_put_loses_its_own_block_or_nothing() {
    let put = [Doubt::Put(block(4, Run4))];
    assert_eq!(accounted(&[], &[], &put), Ok((vec![], vec![])));
    let own = block(4, Run4);
    assert_eq!(accounted(&[own], &[], &put), Ok((vec![], vec![own])));
    assert!(accounted(&[block(8, Run4)], &[], &put).is_err());
    assert!(accounted(&[block(4, Run2)], &[], &put).is_err());
    let outside = [Doubt::Put(block(512 * N, Run4))];
    assert!(accounted(&[own], &[], &outside).is_err());
    // The frames may have gone to another block, which is held by now.
    let next = [block(4, Run2)];
    assert_eq!(accounted(&next, &next, &put), Ok((vec![], vec![])));
}

#[test]
fn neighbours_are_told_apart() {
    // Frames 0 to 3: one block of 4 frames, or two of 2, or of 2, 1 and 1.
    let doubts = [
        Doubt::Get(Base),
        Doubt::Get(Huge),
        Doubt::Get(Run2),
        Doubt::Get(Base),
    ];
    let (gets, _) = accounted(&[block(0, Run4)], &[], &doubts).unwrap();
    assert_eq!(gets.len(), 3);
    assert!(accounted(&[block(0, Run4)], &[], &doubts[..3]).is_err());
    let huge = block(0, Huge);
    assert_eq!(accounted(&[huge], &[], &doubts), Ok((vec![huge], vec![])));
}

#[test]
fn a_huge_frame_is_not_eight_words() {
    let huge = block(0, Huge);
    let mut doubts = vec![Doubt::Get(Run64); 8];
    assert!(accounted(&[huge], &[], &doubts).is_err());
    doubts.push(Doubt::Get(Huge));
    assert_eq!(accounted(&[huge], &[], &doubts), Ok((vec![huge], vec![])));
    let words: Vec<Block> = (0..8).map(|word| block(64 * word, Run64)).collect();
    assert_eq!(accounted(&words, &[], &doubts), Ok((words.clone(), vec![])));
    assert!(accounted(&words, &[], &doubts[1..]).is_err());
}
