//! The recount of all children, beside plain passes over their words.

use std::hint::black_box;
use std::time::Duration;

use super::{N, REPETITIONS, Spent, milliseconds};
use crate::memory::Memory;
use crate::plain;
use crate::timing::{median, time};

/// The recount of every child by either engine, and plain passes over the words.
pub struct Recount {
    pub library: Spent,
    pub plain: Spent,
    /// A pass that sums the words.
    pub sum: Spent,
    /// A pass that counts their zero bits.
    pub zeros: Spent,
}

/// Measures them, medians, in turns.
pub fn measured(cut: &mut Memory) -> Recount {
    let mut memory = cut.clone();
    let mut numbers = [const { Vec::new() }; 4];
    for _ in 0..REPETITIONS {
        memory.copy_from(cut);
        numbers[0].push(milliseconds(library_recount(&mut memory)));
        memory.copy_from(cut);
        numbers[1].push(milliseconds(plain_recount(&mut memory)));
        let words = &*memory.library().words;
        numbers[2].push(milliseconds(pass(words, |word| word)));
        numbers[3].push(milliseconds(pass(words, |word| word.count_zeros().into())));
    }
    let [library, plain, sum, zeros] = numbers.map(median);
    Recount {
        library,
        plain,
        sum,
        zeros,
    }
}

fn library_recount(memory: &mut Memory) -> Duration {
    let mut record = [0; 2];
    let mut tables = memory.library();
    tables.open(&mut record);
    let (spent, ran) = time(|| tables.open_run(&mut record, N));
    assert_eq!((ran.number, ran.steps), (1, N));
    spent
}

fn plain_recount(memory: &mut Memory) -> Duration {
    let mut tables = memory.plain();
    let begun = tables.open();
    let plain::Answer::UnderWay(record) = begun else {
        panic!("open was refused with {}", begun.number());
    };
    let (spent, (answer, steps)) = time(|| tables.open_run(record, N));
    assert_eq!((answer.number(), steps), (1, N));
    spent
}

/// A pass over the words: the sum of a number of each.
fn pass(words: &[u64], each: impl Fn(u64) -> u64) -> Duration {
    let sum = |words: &[u64]| {
        let numbers = words.iter().map(|&word| each(word));
        numbers.fold(0u64, u64::wrapping_add)
    };
    let (spent, sum) = time(|| sum(black_box(words)));
    black_box(sum);
    spent
}
