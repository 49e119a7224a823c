//! Records of creates and opens.

use reference::lifecycle::{Creating, Opening};

use crate::record::{Record, stage};
use crate::translate::Shape;

/// A create's record; one that the reference refuses with 11 where its type has none.
pub fn creating(record: Option<Record>, shape: Shape) -> Creating {
    let number = record.and_then(|record| create_number(&record, shape));
    number.map_or(Creating::Finished, Creating::Next)
}

/// The lengths of the parts of a create.
fn create_parts(shape: Shape) -> [(u8, usize); 5] {
    [
        (stage::CREATE_WORDS, 8 * shape.n),
        (stage::CREATE_CHILDREN, shape.n),
        (stage::CREATE_TREES, shape.trees()),
        (stage::CREATE_CPUS, shape.cpus),
        (stage::CREATE_HEADER, 1),
    ]
}

/// The lengths of the parts of an open, without the children.
fn open_parts(shape: Shape) -> [(u8, usize); 2] {
    [
        (stage::OPEN_TREES, shape.trees()),
        (stage::OPEN_CPUS, shape.cpus),
    ]
}

/// The number within its part that a record of create or open names.
fn part_number(record: &Record) -> usize {
    match record.stage {
        stage::CREATE_TREES | stage::OPEN_TREES => record.tree.into(),
        stage::CREATE_CPUS | stage::OPEN_CPUS => record.cpu.into(),
        _ => record.number as usize,
    }
}

/// The number of a record's store, counted over the parts from 1.
fn store_number(record: &Record, parts: &[(u8, usize)]) -> Option<usize> {
    let number = part_number(record);
    let mut before = 1;
    for &(stage, length) in parts {
        if stage == record.stage {
            return (number < length).then_some(before + number);
        }
        before += length;
    }
    None
}

fn create_number(record: &Record, shape: Shape) -> Option<usize> {
    store_number(record, &create_parts(shape))
}

/// The record of a store, counted over the parts from 1.
fn stored(store: usize, parts: &[(u8, usize)]) -> Record {
    let mut number = store.saturating_sub(1);
    for &(stage, length) in parts {
        if number < length {
            return part(stage, number);
        }
        number -= length;
    }
    Record::FINISHED
}

fn part(stage: u8, number: usize) -> Record {
    let begun = Record {
        stage,
        ..Record::FINISHED
    };
    match stage {
        stage::CREATE_TREES | stage::OPEN_TREES => Record {
            tree: number as u16,
            ..begun
        },
        stage::CREATE_CPUS | stage::OPEN_CPUS => Record {
            cpu: number as u8,
            ..begun
        },
        _ => Record {
            number: number as u64,
            ..begun
        },
    }
}

/// The library's record of a create.
pub fn of_creating(record: &Creating, shape: Shape) -> Record {
    match *record {
        Creating::Finished => Record::FINISHED,
        Creating::Next(store) => stored(store, &create_parts(shape)),
    }
}

/// An open's record; one that the reference refuses with 11 where its type has none.
pub fn opening(record: Option<Record>, shape: Shape) -> Opening {
    let Some(record) = record else {
        return Opening::Finished;
    };
    let recover = record.stage == stage::OPEN_CHILDREN;
    let store = if recover {
        store_number(&record, &[(stage::OPEN_CHILDREN, shape.n)])
    } else {
        store_number(&record, &open_parts(shape))
    };
    store.map_or(Opening::Finished, |store| Opening::Next { store, recover })
}

/// The library's record of an open.
pub fn of_opening(record: &Opening, shape: Shape) -> Record {
    let Opening::Next { store, recover } = *record else {
        return Record::FINISHED;
    };
    if !recover {
        return stored(store, &open_parts(shape));
    }
    if store <= shape.n {
        return part(stage::OPEN_CHILDREN, store.saturating_sub(1));
    }
    stored(store - shape.n, &open_parts(shape))
}
