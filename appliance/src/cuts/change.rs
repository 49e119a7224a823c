//! The entry that a step changed.

use lovarntek::calls::Tables;

use crate::block::Block;
use crate::layout;

/// What a step changed.
#[derive(Clone, Copy, Debug, PartialEq, Eq)]
pub enum Change {
    /// Nothing.
    Nothing,
    /// An entry, and no frame's state.
    Counts,
    /// The block was taken.
    Taken(Block),
    /// The block was freed.
    Freed(Block),
}

/// The change between two states. Two entries changed at once, or frames that are no block, are a fault.
pub fn between(before: &Tables<'_>, after: &Tables<'_>) -> Result<Change, String> {
    let words = Changed::of(before.words, after.words);
    let children = Changed::of(before.children, after.children);
    let others = Changed::of(before.header, after.header).count
        + Changed::of(before.trees, after.trees).count
        + Changed::of(before.cpus, after.cpus).count;
    match (words.count, children.count, others) {
        (0, 0, 0) => Ok(Change::Nothing),
        (0, 0, 1) => Ok(Change::Counts),
        (1, 0, 0) => {
            let word = words.first;
            of_word(word, before.words[word], after.words[word])
        }
        (0, 1, 0) => {
            let child = children.first;
            Ok(of_child(
                child,
                before.children[child],
                after.children[child],
            ))
        }
        _ => Err(String::from("more than one entry changed in one step")),
    }
}

/// How many entries of a table differ, and the first of them.
struct Changed {
    count: usize,
    first: usize,
}

impl Changed {
    fn of<T: PartialEq>(before: &[T], after: &[T]) -> Self {
        if before == after {
            return Changed { count: 0, first: 0 };
        }
        let pairs = before.iter().zip(after).enumerate();
        let mut differing = pairs.filter(|(_, (before, after))| before != after);
        let first = differing.next().map_or(0, |(position, _)| position);
        Changed {
            count: 1 + differing.count(),
            first,
        }
    }
}

/// The block whose bits were set or cleared in a word.
fn of_word(word: usize, before: u64, after: u64) -> Result<Change, String> {
    let change = match (after & !before, before & !after) {
        (set, 0) => Block::of_bits(word, set).map(Change::Taken),
        (0, cleared) => Block::of_bits(word, cleared).map(Change::Freed),
        _ => None,
    };
    change.ok_or(format!(
        "word {word}: from {before:#018x} to {after:#018x}, which is no block"
    ))
}

/// What became of a child: taken or freed as one, or another count.
fn of_child(child: usize, before: u16, after: u16) -> Change {
    match (layout::flagged(before), layout::flagged(after)) {
        (false, true) => Change::Taken(Block::of_child(child)),
        (true, false) => Change::Freed(Block::of_child(child)),
        _ => Change::Counts,
    }
}
