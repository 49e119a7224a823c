//! Records that a call does not take.

use crate::common::{CALLS, Call, created, refused};
use lovarntek::{Answer, Order, Record, Refusal};

/// The calls that read a record, by the operation whose records they take.
fn readers(operation: &str) -> Vec<&'static Call> {
    let names = match operation {
        "create" => ["create_step", "create_run"],
        "open" => ["open_step", "open_run"],
        _ => ["step", "run"],
    };
    let named = |call: &&Call| names.contains(&call.name);
    CALLS.iter().filter(named).collect()
}

#[test]
fn a_record_of_another_operation() {
    let mut zone = created(33, 2);
    let frame = zone.get(0, Order::Base).unwrap();
    let records = [
        ("get", zone.begin_get(0, Order::Base)),
        ("get", zone.begin_get(1, Order::Run16)),
        ("get", zone.begin_get(1, Order::Huge)),
        ("put", zone.begin_put(0, frame, Order::Base)),
        ("put", zone.begin_put(0, 64, Order::Run64)),
        ("put", zone.begin_put(1, 512, Order::Huge)),
        ("open", created(33, 2).open_first()),
        ("create", created(33, 2).create_first(33)),
    ];
    for (operation, record) in records {
        let words = record.unwrap().words();
        for other in ["create", "open", "step"] {
            let own = other == operation || other == "step" && ["get", "put"].contains(&operation);
            if !own {
                for call in readers(other) {
                    refused(&mut zone, call, &mut words.clone(), 11, &[0, 0]);
                }
            }
        }
    }
}

#[test]
fn words_that_are_no_record() {
    let mut zone = created(33, 2);
    for words in [[0, 0], [u64::MAX; 2], [0, u64::MAX], [u64::MAX, 0]] {
        for operation in ["create", "open", "step"] {
            for call in readers(operation) {
                refused(&mut zone, call, &mut words.clone(), 11, &[0, 0]);
            }
        }
        let mut record = Record::from_words(words);
        let bad = Answer::Refused(Refusal::BadRecord);
        assert_eq!(zone.step(&mut record), bad);
        assert_eq!(record, Record::FINISHED);
    }
}

#[test]
fn a_record_kept_as_words() {
    let mut zone = created(65, 2);
    let mut kept = zone.begin_get(1, Order::Huge).unwrap().words();
    loop {
        let mut record = Record::from_words(kept);
        let answer = zone.step(&mut record);
        kept = record.words();
        match answer {
            Answer::UnderWay => assert_ne!(kept, [0, 0]),
            end => break assert_eq!(end, Answer::Done(0)),
        }
    }
    assert_eq!(kept, Record::FINISHED.words());
}

#[test]
fn a_cpu_that_a_shorter_table_has_not() {
    let mut zone = created(33, 2);
    let mut record = zone.begin_get(1, Order::Base).unwrap();
    let tables = zone.tables();
    let answered = lovarntek::Tables {
        cpus: &mut tables.cpus[..1],
        ..tables
    }
    .step(&mut record.words());
    assert_eq!(answered.number, 11);
    assert_eq!(zone.step(&mut record), Answer::UnderWay);
}
