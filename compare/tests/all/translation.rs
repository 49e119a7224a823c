//! The library's records, as the reference's and back.

use compare::record::{Form, Record, kind, stage};
use compare::states;
use compare::translate::{
    Shape, creating, of_creating, of_opening, of_operation, opening, operation,
};
use reference::get::{Get, Search, Stage};
use reference::lifecycle::{Creating, Opening};
use reference::operation::{Operation, Order};
use reference::put::{Put, PutStage};
use reference::rng::Rng;

const SHAPES: [Shape; 6] = [
    Shape { n: 1, cpus: 1 },
    Shape { n: 33, cpus: 2 },
    Shape { n: 65, cpus: 64 },
    Shape { n: 1_030, cpus: 3 },
    Shape { n: 1_100, cpus: 8 },
    Shape {
        n: 65_536,
        cpus: 64,
    },
];

/// Whether a place of the record's kind exists in a zone of this shape.
fn exists(record: &Record) -> bool {
    let stolen = record.kind == kind::STOLEN || record.stage == stage::STEAL;
    let near = record.kind == kind::NEAR;
    let same = near && record.base == record.tree || stolen && record.from == record.cpu;
    !same
}

/// There and back, by the operation that the record belongs to.
fn back(record: Record, shape: Shape) -> Record {
    let given = Some(record);
    match record.stage {
        stage::CREATE_WORDS..=stage::CREATE_HEADER => of_creating(&creating(given, shape), shape),
        stage::OPEN_CHILDREN..=stage::OPEN_CPUS => of_opening(&opening(given, shape), shape),
        _ => of_operation(&operation(given, shape), shape),
    }
}

#[test]
fn every_kind_of_record_goes_round() {
    let mut rng = Rng::new(1, 0);
    for shape in SHAPES {
        for number in stage::ALL {
            let (mut kinds, mut orders) = ([0; 7], [0; 10]);
            for _ in 0..600 {
                let record = states::record(&mut rng, shape, number);
                assert_eq!(Record::split(record.join()), Some(record));
                orders[usize::from(record.order)] += 1;
                if exists(&record) {
                    assert_eq!(back(record, shape), record, "{shape:?}");
                    kinds[usize::from(record.kind)] += 1;
                }
            }
            let several = shape.cpus > 1 && shape.trees() > 1;
            let form = Form::of(number).unwrap();
            for order in 0..10 {
                assert_eq!(orders[usize::from(order)] > 0, form.has_order(order));
            }
            if several {
                assert!(form.kinds.clone().all(|kind| kinds[usize::from(kind)] > 0));
            }
        }
    }
    assert_eq!(back(Record::FINISHED, SHAPES[0]), Record::FINISHED);
}

#[test]
fn records_have_the_layout() {
    let near = Record {
        stage: stage::WORD,
        cpu: 2,
        kind: kind::NEAR,
        start: 3,
        child: 4,
        word: 5,
        tree: 6,
        base: 7,
        ..Record::FINISHED
    };
    assert_eq!(near.join(), [0x0D02_0002_0304_0500, 0x0006_0007_0000_0000]);
    let stolen = Record {
        stage: stage::STEAL_COUNT,
        cpu: 1,
        order: 9,
        kind: kind::STOLEN,
        tree: 0x0123,
        hand: 0x4000,
        from: 63,
        ..Record::FINISHED
    };
    assert_eq!(
        stolen.join(),
        [0x0B01_0906_0000_0000, 0x0123_0000_4000_3F00]
    );
    let huge = Record {
        stage: stage::CLEAR,
        cpu: 1,
        order: 9,
        number: 64,
        ..Record::FINISHED
    };
    assert_eq!(huge.join(), [0x1201_0900_0000_0000, 64]);
    let Operation::Put(put) = operation(Some(huge), SHAPES[2]) else {
        panic!("a put");
    };
    assert_eq!((put.frame, put.order), (64 * 512, Order::HUGE));
}

/// The operation of two words, and the words again.
fn round(words: [u64; 2], shape: Shape) -> Operation {
    let operation = operation(Record::split(words), shape);
    assert_eq!(of_operation(&operation, shape).join(), words);
    operation
}

#[test]
fn records_of_runs() {
    let shape = SHAPES[2];
    for number in 0..=6 {
        let order = Order::from_number(number).unwrap();
        let byte = number << 40;
        let first = 512 - order.size() as u64;
        for (stage, words) in [
            (PutStage::Clear, [0x1201_0000_0000_0000 | byte, first]),
            (PutStage::RaiseChild, [0x1301_0000_0000_0000 | byte, first]),
            (PutStage::OwnEntry, [0x1401_0000_0000_0000 | byte, first]),
            (PutStage::Tree, [0x1501_0000_0000_0000 | byte, first]),
        ] {
            let (cpu, frame) = (1, first);
            let put = Put {
                cpu,
                frame,
                order,
                stage,
            };
            assert_eq!(round(words, shape), Operation::Put(put));
        }
        let search = Search {
            tree: 1,
            start: 2,
            tried: 3,
        };
        let place = 0x0001_0000_0000_0000;
        for (stage, words) in [
            (
                Stage::SearchWord { search, word: 7 },
                [0x0D01_0003_0205_0700 | byte, place],
            ),
            (
                Stage::GiveBack(search),
                [0x0E01_0003_0205_0000 | byte, place],
            ),
            (
                Stage::KeepStart { frame: first },
                [0x0F01_0000_0000_0000 | byte, first],
            ),
        ] {
            let Operation::Get(get) = round(words, shape) else {
                panic!("a get");
            };
            assert_eq!((get.cpu, get.order, get.stage), (1, order, stage));
        }
    }
}

/// Frames out of range or alignment are records that the reference refuses.
#[test]
fn frames_of_runs_are_any_numbers() {
    for stage in [0x0F, 0x12, 0x13, 0x14, 0x15] {
        for order in 0..=6 {
            for frame in [0, 1, 63, 64, 1 << 32, u64::MAX] {
                round([stage << 56 | order << 40, frame], SHAPES[1]);
            }
        }
    }
}

#[test]
fn places_are_numbered() {
    let shape = Shape { n: 1_100, cpus: 4 };
    let trees = 35;
    let at = |words| match operation(Record::split(words), shape) {
        Operation::Get(get) => (get.own, get.place, get.stage),
        other => panic!("{other:?}"),
    };
    let cpu = 0x0001_0000_0000_0000;
    let tried = |kind: u64| 0x0800_0000_0000_0000 | cpu | kind << 32;
    assert_eq!(
        at([tried(2), 0x0022_0020_0000_0000]),
        (Some(32), 1, Stage::TryPlace)
    );
    assert_eq!(
        at([tried(2), 0x0020_0022_0000_0000]),
        (Some(34), 0, Stage::TryPlace)
    );
    assert_eq!(
        at([tried(3), 0x0003_0000_0000_0000]),
        (None, 3, Stage::TryPlace)
    );
    assert_eq!(at([tried(4), 0]), (None, trees, Stage::TryPlace));
    assert_eq!(at([tried(5), 0]), (None, 2 * trees, Stage::TryPlace));
    let steal = 0x0A00_0000_0000_0000 | cpu;
    assert_eq!(at([steal, 0]), (None, 3 * trees, Stage::TryPlace));
    assert_eq!(at([steal, 0x0200]), (None, 3 * trees + 1, Stage::TryPlace));
    let no_room = 0x1100_0000_0000_0000 | cpu;
    assert_eq!(at([no_room, 0]), (None, 3 * trees + 3, Stage::TryPlace));
}

#[test]
fn words_that_are_no_record() {
    for words in [
        [1, 0],
        [0, 1],
        [0x1E00_0000_0000_0000, 0],
        [0x0100_0700_0000_0000, 0],
        [0x0100_0800_0000_0000, 0],
        [0x0100_0A00_0000_0000, 0],
        [0x0100_0001_0000_0000, 0],
        [0x0100_0000_0000_0000, 1 << 48],
        [0x0200_0000_0000_0000, 1],
        [0x0600_0000_0000_0000, 0],
        [0x0600_0007_0000_0000, 0],
        [0x0600_0001_0000_0000, 1 << 32],
        [0x0800_0001_0000_0000, 0],
        [0x0B00_0005_0000_0000, 0],
        [0x0D00_0901_0000_0000, 0],
        [0x0D00_0701_0000_0000, 0],
        [0x0E00_0901_0000_0000, 0],
        [0x1100_0900_0000_0000, 0],
        [0x1100_0100_0000_0000, 0],
        [0x1200_0900_0000_0000, 1 << 32],
        [0x1200_0800_0000_0000, 0],
        [0x1300_0900_0000_0000, 0],
        [0x1600_0000_0000_0000, 1 << 32],
        [0x1600_0100_0000_0000, 0],
        [0x1C00_0600_0000_0000, 0],
        [0x1801_0000_0000_0000, 0],
        [0x1A00_0000_0000_0000, 1],
    ] {
        assert_eq!(Record::split(words), None, "{words:#x?}");
    }
    assert!(Record::split([0x1200_0000_0000_0000, u64::MAX]).is_some());
    assert!(Record::split([0x1200_0600_0000_0000, u64::MAX]).is_some());
    assert_eq!(operation(None, SHAPES[1]), Operation::Finished);
    assert_eq!(creating(None, SHAPES[1]), Creating::Finished);
    assert_eq!(opening(None, SHAPES[1]), Opening::Finished);
}

#[test]
fn places_that_do_not_exist() {
    let shape = Shape { n: 1_030, cpus: 2 };
    let at = |stage, kind, tree, base, from| Record {
        stage,
        kind,
        tree,
        base,
        from,
        ..Record::FINISHED
    };
    for record in [
        at(stage::TRY, kind::NEAR, 1, 1, 0),
        at(stage::TRY, kind::NEAR, 32, 31, 0),
        at(stage::TRY, kind::NEAR, 33, 32, 0),
        at(stage::TRY, kind::PARTIAL, 33, 0, 0),
        at(stage::TRY, kind::ANY, u16::MAX, 0, 0),
        at(stage::STEAL, 0, 0, 0, 0),
        at(stage::STEAL, 0, 0, 0, 2),
        at(stage::STEAL_COUNT, kind::STOLEN, 0, 0, 0),
    ] {
        assert_eq!(operation(Some(record), shape), Operation::Finished);
    }
}

#[test]
fn searches_count_from_their_start() {
    let shape = Shape { n: 65, cpus: 1 };
    let tried = |start, child| {
        let record = Record {
            stage: stage::CHILD,
            kind: kind::OWN,
            tree: 1,
            start,
            child,
            ..Record::FINISHED
        };
        match operation(Some(record), shape) {
            Operation::Get(Get {
                stage: Stage::SearchChild(search),
                ..
            }) => search.tried,
            other => panic!("{other:?}"),
        }
    };
    assert_eq!(
        [tried(0, 31), tried(31, 0), tried(5, 4), tried(5, 5)],
        [31, 1, 31, 0]
    );
    assert!(tried(0, 32) >= 32);
}
