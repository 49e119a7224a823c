//! Every refusal, its order, and that it stores nothing.

use crate::common::Packed;
use reference::answer::{Answer, Refusal};
use reference::get::{Get, Search, Stage};
use reference::layout::Header;
use reference::lifecycle::{Creating, Opening};
use reference::operation::{Operation, Order};
use reference::packed::Tables;
use reference::put::{Put, PutStage};

const PRESENT: u64 = 1 << 63;

/// Makes a call that must answer `number` and store nothing.
fn refused<R>(packed: &mut Packed, number: u8, call: impl FnOnce(&mut Tables) -> Answer<R>) {
    let before = packed.clone();
    let answer = call(&mut packed.tables());
    assert_eq!(answer.number(), number);
    assert_eq!(answer.frame(), 0);
    assert_eq!(*packed, before);
}

fn a_get(cpu: usize, order: Order, stage: Stage) -> Operation {
    Operation::Get(Get {
        stage,
        ..Get::new(cpu, order)
    })
}

fn a_put(cpu: usize, frame: u64, order: Order, stage: PutStage) -> Operation {
    Operation::Put(Put {
        stage,
        ..Put::new(cpu, frame, order)
    })
}

/// Copies of the tables with one length wrong each.
fn wrong_lengths(good: &Packed) -> Vec<Packed> {
    let mut wrong = vec![good.clone(); 6];
    wrong[0].words.pop();
    wrong[1].children.push(0x0200);
    wrong[2].trees.pop();
    wrong[3].cpus.clear();
    wrong[4].cpus = vec![0; 65];
    wrong[5].header.push(good.header[0]);
    wrong
}

/// Headers with one field wrong each.
fn wrong_headers() -> Vec<u64> {
    let good = Header::running(33);
    [
        Header {
            identifier: 0x4C47,
            ..good
        },
        Header { format: 0, ..good },
        Header { format: 2, ..good },
        Header { marker: 0, ..good },
        Header { marker: 3, ..good },
        Header { n: 0, ..good },
        Header { n: 65_537, ..good },
        Header { zero: 1, ..good },
    ]
    .map(Header::join)
    .to_vec()
}

type Call = fn(&mut Tables) -> u8;

/// The calls that need a running zone.
const RUNNING_CALLS: [Call; 6] = [
    |tables| tables.begin_get(99, 7).number(),
    |tables| tables.begin_put(99, u64::MAX, 7).number(),
    |tables| tables.step(Operation::Finished).number(),
    |tables| {
        tables
            .step(Operation::Get(Get::new(0, Order::BASE)))
            .number()
    },
    |tables| tables.open_next(Opening::Finished).number(),
    |tables| tables.close().number(),
];

fn unchanged(packed: &mut Packed, number: u8, call: Call) {
    let before = packed.clone();
    assert_eq!(call(&mut packed.tables()), number);
    assert_eq!(*packed, before);
}

#[test]
fn headers_closed_zones_and_lengths_in_their_order() {
    let good = Packed::created(33, 2);
    let mut closed = good.clone();
    assert_eq!(closed.tables().close(), Answer::Done(0));
    assert_eq!(closed.header, [Header::clean(33).join()]);
    for call in RUNNING_CALLS {
        for mut packed in wrong_lengths(&good) {
            unchanged(&mut packed, 8, call);
        }
        for (index, mut packed) in wrong_lengths(&closed).into_iter().enumerate() {
            let header = index == 5;
            unchanged(&mut packed, if header { 8 } else { 10 }, call);
        }
        for header in wrong_headers() {
            for (index, mut packed) in wrong_lengths(&good).into_iter().enumerate() {
                packed.header[0] = header;
                unchanged(&mut packed, if index == 5 { 8 } else { 9 }, call);
            }
        }
        unchanged(&mut closed, 10, call);
    }
}

#[test]
fn open_refuses_headers_lengths_and_children() {
    let good = Packed::created(33, 2);
    for header in wrong_headers() {
        let mut packed = good.clone();
        packed.header[0] = header;
        packed.words.pop();
        refused(&mut packed, 9, |tables| tables.open_first());
    }
    for mut packed in wrong_lengths(&good) {
        packed.children[0] = 0xFFFF;
        refused(&mut packed, 8, |tables| tables.open_first());
    }
    let mut malformed = good.clone();
    malformed.children[32] = 0x8001;
    refused(&mut malformed, 12, |tables| tables.open_first());
    let mut over_bits = good.clone();
    over_bits.children[32] = 0x8000;
    over_bits.words[8 * 33 - 1] = 1 << 63;
    refused(&mut over_bits, 12, |tables| tables.open_first());
    over_bits.header[0] = Header::clean(33).join();
    assert_eq!(over_bits.open(), (0, 1 + 2 + 2), "words are not read");
}

#[test]
fn later_steps_of_open() {
    let mut packed = Packed::created(33, 2);
    let at = |store| Opening::Next {
        store,
        recover: true,
    };
    for record in [Opening::Finished, at(0), at(1 + 33 + 2 + 2), at(usize::MAX)] {
        refused(&mut packed, 11, |tables| tables.open_next(record));
    }
    packed.children[3] = 0x0400;
    refused(&mut packed, 12, |tables| tables.open_next(at(4)));
    refused(&mut packed, 12, |tables| tables.open_next(at(34)));
    assert_eq!(packed.tables().open_next(at(35)).number(), 1);
}

#[test]
fn create_refuses_sizes_lengths_and_records() {
    let mut packed = Packed::created(33, 2);
    for n in [0, 65_537, u64::MAX] {
        refused(&mut packed, 14, |tables| tables.create_first(n));
        refused(&mut packed, 14, |tables| {
            tables.create_next(n, Creating::Finished)
        });
    }
    let mut no_header = packed.clone();
    no_header.header.clear();
    refused(&mut no_header, 14, |tables| tables.create_first(0));
    refused(&mut no_header, 8, |tables| tables.create_first(33));
    for mut wrong in wrong_lengths(&packed) {
        refused(&mut wrong, 8, |tables| tables.create_first(33));
        refused(&mut wrong, 8, |tables| {
            tables.create_next(33, Creating::Finished)
        });
    }
    let last = 8 * 33 + 33 + 2 + 2 + 1;
    for record in [
        Creating::Finished,
        Creating::Next(0),
        Creating::Next(last + 1),
        Creating::Next(usize::MAX),
    ] {
        refused(&mut packed, 11, |tables| tables.create_next(33, record));
    }
    let answer = packed.tables().create_next(33, Creating::Next(last));
    assert_eq!(answer, Answer::Done(0));
}

#[test]
fn beginnings_in_their_order() {
    let mut packed = Packed::created(33, 2);
    let end = 33 * 512;
    for (cpu, order, number) in [
        (2, 7, 7),
        (2, 1, 7),
        (u64::MAX, 0, 7),
        (1, 7, 3),
        (0, 8, 3),
        (0, 10, 3),
        (0, u64::MAX, 3),
    ] {
        refused(&mut packed, number, |tables| tables.begin_get(cpu, order));
    }
    for (cpu, frame, order, number) in [
        (2, end + 1, 7, 7),
        (2, 1, 1, 7),
        (2, 0, 0, 7),
        (0, end + 1, 7, 3),
        (0, 1, 8, 3),
        (0, 0, 10, 3),
        (0, end + 1, 9, 4),
        (0, end + 1, 1, 4),
        (0, end, 0, 4),
        (0, end, 6, 4),
        (0, u64::MAX, 0, 4),
        (0, u64::MAX, 6, 4),
        (0, end - 1, 9, 5),
        (0, end - 1, 1, 5),
        (0, 2, 2, 5),
        (0, 4, 3, 5),
        (0, 8, 4, 5),
        (0, 16, 5, 5),
        (0, 32, 6, 5),
        (0, 96, 6, 5),
    ] {
        refused(&mut packed, number, |tables| {
            tables.begin_put(cpu, frame, order)
        });
    }
}

#[test]
fn not_taken() {
    let mut packed = Packed::created(1, 1);
    for (order, stage) in [
        (Order::BASE, PutStage::Clear),
        (Order::HUGE, PutStage::Clear),
    ] {
        refused(&mut packed, 6, |tables| {
            tables.step(a_put(0, 0, order, stage))
        });
    }
    assert_eq!(packed.get(0, 9), Answer::Done(0));
    assert_eq!(packed.put(0, 5, 0), Answer::Refused(Refusal::NotTaken));
    assert_eq!(packed.put(0, 64, 6), Answer::Refused(Refusal::NotTaken));
}

/// One clear bit anywhere in a run, or all of them.
#[test]
fn not_taken_when_any_bit_is_clear() {
    for number in 0..=6 {
        let order = Order::from_number(number).unwrap();
        let size = order.size() as u64;
        let mut packed = Packed::created(1, 1);
        packed.children[0] = 0;
        packed.trees[0] = 0;
        for bit in 0..size {
            packed.words[1] = !(1 << (64 - size + bit));
            let last = a_put(0, 128 - size, order, PutStage::Clear);
            refused(&mut packed, 6, |tables| tables.step(last));
        }
        packed.words[1] = 0;
        let first = a_put(0, 64, order, PutStage::Clear);
        refused(&mut packed, 6, |tables| tables.step(first));
        packed.words[1] = u64::MAX;
        assert_eq!(packed.put(0, 64, number), Answer::Done(64));
        assert_eq!(packed.words[1].count_zeros(), size as u32);
        assert_eq!(packed.words[1].trailing_zeros(), size as u32);
        assert_eq!(packed.children[0], size as u16);
    }
}

#[test]
fn records_out_of_range() {
    let mut packed = Packed::created(33, 2);
    let search = |tree, start, tried| Search { tree, start, tried };
    let base = Order::BASE;
    let huge = Order::HUGE;
    let pair = Order::from_number(1).unwrap();
    let whole = Order::LONGEST_RUN;
    let mut records = vec![Operation::Finished];
    records.extend([
        a_get(2, base, Stage::Look),
        a_get(0, base, Stage::TakeCount { tree: 2 }),
        a_get(0, base, Stage::ReleaseEntry { tree: 2 }),
        a_get(0, base, Stage::ReturnClaim { tree: 2 }),
        a_get(
            0,
            base,
            Stage::FillEntry {
                tree: 0,
                hand: 16_385,
            },
        ),
        a_get(0, base, Stage::ReturnHand { tree: 1, hand: 513 }),
        a_get(0, base, Stage::ReleaseTree { tree: 2, hand: 0 }),
        a_get(0, base, Stage::StealCount { tree: 1, hand: 513 }),
        a_get(0, base, Stage::StealReturn { tree: 1, hand: 513 }),
        a_get(0, base, Stage::WriteEntry { tree: 1, hand: 513 }),
        a_get(0, base, Stage::SearchChild(search(2, 0, 0))),
        a_get(0, base, Stage::SearchChild(search(1, 1, 0))),
        a_get(0, base, Stage::GiveBack(search(0, 0, 32))),
        a_get(
            0,
            base,
            Stage::SearchWord {
                search: search(0, 0, 0),
                word: 8,
            },
        ),
        a_get(0, base, Stage::KeepStart { frame: 33 * 512 }),
        a_get(0, huge, Stage::KeepStart { frame: 1 }),
        a_get(0, pair, Stage::KeepStart { frame: 1 }),
        a_get(0, whole, Stage::KeepStart { frame: 32 }),
        a_get(0, whole, Stage::KeepStart { frame: 33 * 512 }),
        a_get(0, huge, Stage::GiveBack(search(0, 0, 0))),
        a_get(
            0,
            huge,
            Stage::SearchWord {
                search: search(0, 0, 0),
                word: 0,
            },
        ),
        Operation::Get(Get {
            own: Some(2),
            ..Get::new(0, base)
        }),
        Operation::Get(Get {
            place: 8,
            ..Get::new(0, base)
        }),
        a_put(2, 0, base, PutStage::Clear),
        a_put(0, 33 * 512, base, PutStage::Tree),
        a_put(0, 1, huge, PutStage::Clear),
        a_put(0, 0, huge, PutStage::RaiseChild),
        a_put(0, 1, pair, PutStage::Clear),
        a_put(0, 3, pair, PutStage::RaiseChild),
        a_put(0, 16, whole, PutStage::OwnEntry),
        a_put(0, 65, whole, PutStage::Tree),
        a_put(0, u64::MAX, whole, PutStage::Clear),
    ]);
    for record in records {
        packed.children[0] = 0xFFFF;
        refused(&mut packed, 11, |tables| tables.step(record));
    }
}

#[test]
fn malformed_entries_read() {
    let good = Packed::created(33, 2);
    let look = a_get(0, Order::BASE, Stage::Look);
    for entry in [
        1,
        1 << 32,
        PRESENT | 1,
        PRESENT | 2 << 52,
        PRESENT | 1 << 52 | 1 << 47,
        PRESENT | 1 << 52 | 513 << 32,
        PRESENT | 16_385 << 32,
    ] {
        let mut packed = good.clone();
        packed.cpus = vec![entry, entry];
        for operation in [
            look,
            a_get(0, Order::BASE, Stage::FillEntry { tree: 0, hand: 0 }),
            a_get(0, Order::BASE, Stage::LookAgain { tree: 0 }),
            a_get(0, Order::BASE, Stage::ReleaseEntry { tree: 0 }),
            a_get(0, Order::BASE, Stage::WriteEntry { tree: 0, hand: 1 }),
            a_get(0, Order::BASE, Stage::KeepStart { frame: 0 }),
            Operation::Get(Get {
                place: 6,
                stage: Stage::TryPlace,
                ..Get::new(0, Order::BASE)
            }),
            a_put(0, 0, Order::BASE, PutStage::OwnEntry),
        ] {
            refused(&mut packed, 12, |tables| tables.step(operation));
        }
        refused(&mut packed, 12, |tables| tables.close());
    }
}

#[test]
fn malformed_trees_and_children_read() {
    let mut packed = Packed::created(33, 2);
    packed.trees[1] = 513;
    let (tree, hand) = (1, 0);
    let at = |stage| a_get(0, Order::BASE, stage);
    for operation in [
        at(Stage::TakeCount { tree }),
        at(Stage::ReturnHand { tree, hand }),
        at(Stage::ReleaseTree { tree, hand }),
        at(Stage::StealCount { tree, hand }),
        at(Stage::StealReturn { tree, hand }),
        at(Stage::ReturnClaim { tree }),
        Operation::Get(Get {
            place: 1,
            stage: Stage::TryPlace,
            ..Get::new(0, Order::BASE)
        }),
        a_put(0, 32 * 512, Order::BASE, PutStage::Tree),
    ] {
        refused(&mut packed, 12, |tables| tables.step(operation));
    }
    refused(&mut packed, 12, |tables| tables.close());
    let search = Search {
        tree: 0,
        start: 0,
        tried: 0,
    };
    for child in [0x8001, 0x0201, 0x0400] {
        packed.children[0] = child;
        for operation in [
            at(Stage::SearchChild(search)),
            at(Stage::GiveBack(search)),
            a_put(0, 0, Order::BASE, PutStage::RaiseChild),
            a_put(0, 0, Order::HUGE, PutStage::Clear),
        ] {
            refused(&mut packed, 12, |tables| tables.step(operation));
        }
    }
}

#[test]
fn sums_past_their_bounds() {
    let mut packed = Packed::created(33, 2);
    packed.children[1] = 0x8000;
    packed.cpus[0] = PRESENT | 16_384 << 32;
    let at = |stage| a_get(0, Order::BASE, stage);
    let search = |start| Search {
        tree: 0,
        start,
        tried: 0,
    };
    let (tree, hand) = (0, 1);
    let short = |hand| Stage::WriteEntry { tree, hand };
    let whole = Order::LONGEST_RUN;
    packed.children[2] = 512 - 63;
    for operation in [
        a_get(1, Order::HUGE, short(511)),
        a_get(1, whole, short(63)),
        a_get(1, whole, Stage::GiveBack(search(1))),
        a_get(1, whole, Stage::GiveBack(search(2))),
        a_put(0, 512, whole, PutStage::RaiseChild),
        a_put(0, 1_024, whole, PutStage::RaiseChild),
        at(Stage::WriteEntry { tree, hand: 0 }),
        at(Stage::FillEntry { tree, hand }),
        at(Stage::ReturnHand { tree, hand }),
        at(Stage::ReleaseTree { tree, hand }),
        at(Stage::StealCount { tree, hand }),
        at(Stage::StealReturn { tree, hand }),
        at(Stage::ReturnClaim { tree }),
        at(Stage::GiveBack(search(0))),
        at(Stage::GiveBack(search(1))),
        a_put(0, 0, Order::BASE, PutStage::RaiseChild),
        a_put(0, 512, Order::BASE, PutStage::RaiseChild),
        a_put(0, 0, Order::BASE, PutStage::OwnEntry),
        a_put(0, 0, Order::BASE, PutStage::Tree),
    ] {
        refused(&mut packed, 12, |tables| tables.step(operation));
    }
}

#[test]
fn no_room_reads_no_entry() {
    let mut packed = Packed::created(1, 1);
    packed.trees[0] = 0xFFFF;
    packed.cpus[0] = 1;
    let last = Operation::Get(Get {
        place: 3,
        stage: Stage::TryPlace,
        ..Get::new(0, Order::BASE)
    });
    refused(&mut packed, 2, |tables| tables.step(last));
}

#[test]
fn close_refuses_damage_before_unsettled_counts() {
    let mut packed = Packed::created(33, 2);
    packed.words[0] = 1;
    refused(&mut packed, 13, |tables| tables.close());
    packed.children[32] = 0x8001;
    refused(&mut packed, 12, |tables| tables.close());
    packed.children[32] = 0x8000;
    packed.words[8 * 32] = 1;
    refused(&mut packed, 12, |tables| tables.close());

    let mut packed = Packed::created(33, 2);
    packed.trees[1] = 511;
    refused(&mut packed, 13, |tables| tables.close());
    packed.cpus[1] = PRESENT | 1 << 52 | 1 << 32;
    assert_eq!(packed.tables().close(), Answer::Done(0));

    let mut packed = Packed::created(33, 2);
    packed.cpus[1] = PRESENT | 1 << 52 | 512 << 32;
    refused(&mut packed, 13, |tables| tables.close());
}
