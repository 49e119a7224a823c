//! Wrong lengths.

use crate::common::{CALLS, Call, created, refused};
use lovarntek::{Refusal, Zone, calls};

/// Names of wrong lengths, and the tables that have them.
fn wrong(good: &Zone) -> Vec<(&'static str, Zone)> {
    let mut good = good.clone();
    let tables = good.tables();
    let lengths = [
        tables.header.len(),
        tables.words.len(),
        tables.children.len(),
        tables.trees.len(),
        tables.cpus.len(),
    ];
    let names = ["header", "words", "children", "trees", "CPUs"];
    let mut wrong = Vec::new();
    for (at, name) in names.into_iter().enumerate() {
        let others = match name {
            "CPUs" => vec![0, 65, 1000],
            _ => vec![0, lengths[at] - 1, lengths[at] + 1, 2 * lengths[at]],
        };
        for length in others {
            let mut lengths = lengths;
            lengths[at] = length;
            wrong.push((name, resized(&mut good, lengths)));
        }
    }
    wrong
}

/// The same tables, each cut off or filled up to another length.
fn resized(zone: &mut Zone, [header, words, children, trees, cpus]: [usize; 5]) -> Zone {
    fn to<T: Copy>(table: &[T], length: usize) -> Vec<T> {
        table.iter().copied().cycle().take(length).collect()
    }
    let tables = zone.tables();
    Zone::from_tables(
        to(tables.header, header),
        to(tables.words, words),
        to(tables.children, children),
        to(tables.trees, trees),
        to(tables.cpus, cpus),
    )
}

/// Makes a call with a record of the right length.
fn answers(zone: &mut Zone, call: &Call, number: u64) {
    let record = [3, 5];
    let after = if call.has_record { [0, 0] } else { record };
    refused(zone, call, &mut record.clone(), number, &after);
}

#[test]
fn every_wrong_length_of_a_table() {
    for call in &CALLS {
        for (_, mut zone) in wrong(&created(33, 2)) {
            answers(&mut zone, call, 8);
        }
    }
}

#[test]
fn wrong_lengths_in_a_closed_or_malformed_zone() {
    let mut closed = created(33, 2);
    assert_eq!(closed.close(), Ok(()));
    let mut malformed = created(33, 2);
    malformed.tables().header[0] ^= 1;
    for call in &CALLS {
        for (name, mut zone) in wrong(&closed) {
            let number = match call.closed {
                Some(number) if name != "header" => number,
                _ => 8,
            };
            answers(&mut zone, call, number);
        }
        for (name, mut zone) in wrong(&malformed) {
            let not_a_zone = call.reads_header && name != "header";
            answers(&mut zone, call, if not_a_zone { 9 } else { 8 });
        }
    }
}

#[test]
fn all_tables_empty() {
    let mut zone = Zone::from_tables(vec![], vec![], vec![], vec![], vec![]);
    for call in &CALLS {
        answers(&mut zone, call, 8);
    }
    assert_eq!(zone.create_first(0), Err(Refusal::BadSize));
    assert_eq!(zone.open(), Err(Refusal::BadBuffers));
    assert_eq!(zone.close(), Err(Refusal::BadBuffers));
}

#[test]
fn a_record_of_another_length() {
    let mut zone = created(33, 2);
    let mut closed = zone.clone();
    assert_eq!(closed.close(), Ok(()));
    let mut malformed = zone.clone();
    malformed.tables().header[0] = 0;
    for call in CALLS.iter().filter(|call| call.has_record) {
        for length in [0, 1, 3, 64] {
            let record = vec![7; length];
            refused(&mut zone, call, &mut record.clone(), 8, &record);
            let number = call.closed.unwrap_or(8);
            refused(&mut closed, call, &mut record.clone(), number, &record);
            let number = if call.reads_header { 9 } else { 8 };
            refused(&mut malformed, call, &mut record.clone(), number, &record);
        }
    }
    for length in [0, 1, 3] {
        let mut record = vec![7; length];
        assert_eq!(zone.tables().create(&mut record, 0).number, 14);
        assert_eq!(zone.tables().create_step(&mut record, 65_537).number, 14);
        assert_eq!(zone.tables().create_run(&mut record, 0, 9).steps, 0);
        assert_eq!(zone.tables().run(&mut record, 9).steps, 0);
        assert_eq!(zone.tables().get_run(&mut record, 0, 0, 9).steps, 0);
        assert_eq!(zone.tables().put_run(&mut record, 0, 0, 0, 9).steps, 0);
        assert_eq!(record, vec![7; length]);
    }
}

#[test]
fn sizes_and_cpus_of_create() {
    for n in [0, 65_537, u64::MAX] {
        assert_eq!(calls::words(n), 0);
        assert_eq!(calls::children(n), 0);
        assert_eq!(calls::trees(n), 0);
        for cpus in [0, 1, 64, 65, u64::MAX] {
            assert_eq!(Zone::create(n, cpus), Err(Refusal::BadSize));
        }
    }
    for cpus in [0, 65, u64::MAX] {
        assert_eq!(Zone::create(1, cpus), Err(Refusal::BadBuffers));
    }
    for (n, trees) in [(1, 1), (32, 1), (33, 2), (65, 3), (65_536, 2_048)] {
        assert_eq!(calls::words(n), 8 * n);
        assert_eq!(calls::children(n), n);
        assert_eq!(calls::trees(n), trees);
        assert_eq!(created(n, 64).close(), Ok(()));
    }
    let largest = created(65_536, 1).tables().header[0];
    assert_eq!(largest, 0x4C46_1600_0000_0000);
}
