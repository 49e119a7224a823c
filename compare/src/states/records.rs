//! Records whose fields are in their ranges.

use reference::rng::Rng;

use crate::record::{Form, Record, kind, stage};
use crate::states::{self, capacity, count};
use crate::translate::Shape;

/// A random record of a stage, every field in its range.
pub fn record(rng: &mut Rng, shape: Shape, number: u8) -> Record {
    let Some(form) = Form::of(number) else {
        return Record::FINISHED;
    };
    let cpu = rng.below(shape.cpus as u64) as u8;
    let mut record = Record {
        stage: number,
        cpu: if form.cpu { cpu } else { 0 },
        order: order(rng, &form),
        ..Record::FINISHED
    };
    place(rng, shape, &form, &mut record);
    let width = shape.width(record.tree.into()) as u64;
    let hands = capacity(shape, record.tree.into());
    let mut field = |used: bool, bound: u64| if used { rng.below(bound) } else { 0 };
    record.start = field(form.start, width) as u8;
    record.child = field(form.child, width) as u8;
    record.word = field(form.word, 8) as u8;
    let (numbers, step) = numbers(shape, &record);
    record.number = step * field(form.number, numbers);
    if form.hand {
        record.hand = count(rng, hands) as u16;
    }
    record
}

/// An order that the stage may have.
fn order(rng: &mut Rng, form: &Form) -> u8 {
    let order = if form.run {
        states::run_order(rng)
    } else {
        states::order(rng)
    };
    if form.order { order as u8 } else { 0 }
}

/// A place of a kind that the stage may have; of another kind where no such place exists.
fn place(rng: &mut Rng, shape: Shape, form: &Form, record: &mut Record) {
    let trees = shape.trees() as u64;
    if form.tree || *form.kinds.end() != 0 {
        record.tree = rng.below(trees) as u16;
    }
    if form.from {
        record.from = other(rng, shape.cpus as u64, 1 << 6, record.cpu.into()) as u8;
    }
    if *form.kinds.end() == 0 {
        return;
    }
    record.kind = rng.between((*form.kinds.start()).into(), (*form.kinds.end()).into()) as u8;
    if record.kind == kind::NEAR {
        record.base = other(rng, trees, 32, record.tree.into()) as u16;
    }
    if record.kind == kind::STOLEN {
        record.from = other(rng, shape.cpus as u64, 1 << 6, record.cpu.into()) as u8;
    }
}

/// Another number of the aligned block, below the bound; the same one where there is no other.
fn other(rng: &mut Rng, bound: u64, block: u64, number: u64) -> u64 {
    let first = number / block * block;
    let length = (bound - first).min(block);
    if length < 2 {
        return number;
    }
    let other = first + rng.below(length - 1);
    other + u64::from(other >= number)
}

/// How many numbers the second word of a stage has, and their distance.
fn numbers(shape: Shape, record: &Record) -> (u64, u64) {
    let n = shape.n as u64;
    let size = record.size() as u64;
    match record.stage {
        stage::CREATE_WORDS => (8 * n, 1),
        stage::CREATE_CHILDREN | stage::OPEN_CHILDREN => (n, 1),
        _ if record.order == 9 => (n, 1),
        _ => (512 * n / size, size),
    }
}
