//! Create and open by each side.

use std::time::Duration;

use super::{N, REPETITIONS, Spent, milliseconds};
use crate::memory::Memory;
use crate::plain;
use crate::timing::{median, time};
use reference::answer::Answer;
use reference::lifecycle::{Creating, Opening};
use reference::zone::Zone;

#[derive(Clone, Copy, PartialEq, Eq)]
pub enum Act {
    Create,
    OpenCut,
    OpenClosed,
}

impl Act {
    pub fn name(self) -> &'static str {
        match self {
            Act::Create => "create",
            Act::OpenCut => "open after a cut",
            Act::OpenClosed => "open after a close",
        }
    }
}

#[derive(Clone, Copy)]
enum Side {
    Library,
    Plain,
    Reference,
}

const SIDES: [Side; 3] = [Side::Library, Side::Plain, Side::Reference];

/// The time of an act on tables as they stand.
fn spent(side: Side, act: Act, memory: &mut Memory) -> Duration {
    match side {
        Side::Library => time(|| library(act, &mut memory.library())).0,
        Side::Plain => time(|| plain(act, &mut memory.plain())).0,
        Side::Reference => {
            let mut zone = memory.reference();
            time(|| reference(act, &mut zone)).0
        }
    }
}

fn library(act: Act, tables: &mut lovarntek::Tables) {
    let mut record = [0; 2];
    let ran = match act {
        Act::Create => {
            tables.create(&mut record, N);
            tables.create_run(&mut record, N, u64::MAX)
        }
        Act::OpenCut | Act::OpenClosed => {
            tables.open(&mut record);
            tables.open_run(&mut record, u64::MAX)
        }
    };
    assert_eq!(ran.number, 0);
}

fn plain(act: Act, tables: &mut plain::Tables) {
    let number = match act {
        Act::Create => match tables.create(N) {
            plain::Answer::UnderWay(record) => tables.create_run(record, N, u64::MAX).0.number(),
            refused => refused.number(),
        },
        Act::OpenCut | Act::OpenClosed => match tables.open() {
            plain::Answer::UnderWay(record) => tables.open_run(record, u64::MAX).0.number(),
            refused => refused.number(),
        },
    };
    assert_eq!(number, 0);
}

fn reference(act: Act, zone: &mut Zone) {
    match act {
        Act::Create => created(zone),
        Act::OpenCut | Act::OpenClosed => opened(zone),
    }
}

fn created(zone: &mut Zone) {
    let mut answer: Answer<Creating> = zone.create_first(N);
    while let Answer::UnderWay(record) = answer {
        answer = zone.create_next(N, record);
    }
    assert_eq!(answer.number(), 0);
}

fn opened(zone: &mut Zone) {
    let mut answer: Answer<Opening> = zone.open_first();
    while let Answer::UnderWay(record) = answer {
        answer = zone.open_next(record);
    }
    assert_eq!(answer.number(), 0);
}

/// Milliseconds of an act, medians of the sides, which take turns.
pub fn medians(act: Act, begin: &mut Memory) -> Vec<Spent> {
    let mut memory = begin.clone();
    let mut numbers = vec![Vec::new(); SIDES.len()];
    for _ in 0..REPETITIONS {
        for (numbers, &side) in numbers.iter_mut().zip(&SIDES) {
            memory.copy_from(begin);
            numbers.push(milliseconds(spent(side, act, &mut memory)));
        }
    }
    numbers.into_iter().map(median).collect()
}
