//! The journal can be read after each of its writes.

use std::sync::atomic::{AtomicU64, Ordering};

use appliance::block::Block;
use appliance::kills::journal::{Doing, Doubt, Journal, Phase, Reading};
use lovarntek::Order;

const CPUS: u64 = 2;

fn cells() -> Vec<AtomicU64> {
    (0..Journal::bytes(CPUS) / 8)
        .map(|_| AtomicU64::new(0))
        .collect()
}

fn words(cells: &[AtomicU64]) -> Vec<u64> {
    let words = cells.iter().map(|cell| cell.load(Ordering::SeqCst));
    words.collect()
}

fn reading(held: &[Block], doubts: &[Doubt]) -> Reading {
    Reading {
        held: held.to_vec(),
        lost: Vec::new(),
        doubts: doubts.to_vec(),
    }
}

#[test]
fn every_prefix_of_the_writes_is_readable() {
    let cells = cells();
    let journal = Journal::new(&cells, CPUS);
    let a = Block {
        frame: 64,
        order: Order::Run4,
    };
    let b = Block {
        frame: 33_553_920,
        order: Order::Huge,
    };
    let (get_a, get_b) = (Doubt::Get(Order::Run4), Doubt::Get(Order::Huge));
    let get = |order, slot| Doing::Get { order, slot };
    type Write<'a> = &'a dyn Fn();
    // Each write, and what is read after it: two gets, one within the other, then the puts by the other CPU, likewise.
    let writes: [(Write<'_>, Reading); 12] = [
        (
            &|| journal.set_doing(0, get(Order::Run4, 5)),
            reading(&[], &[get_a]),
        ),
        (
            &|| journal.set_doing(1, get(Order::Huge, 127)),
            reading(&[], &[get_a, get_b]),
        ),
        (&|| journal.set_slot(127, Some(b)), reading(&[b], &[get_a])),
        (
            &|| journal.set_doing(1, Doing::Nothing),
            reading(&[b], &[get_a]),
        ),
        (&|| journal.set_slot(5, Some(a)), reading(&[a, b], &[])),
        (
            &|| journal.set_doing(0, Doing::Nothing),
            reading(&[a, b], &[]),
        ),
        (
            &|| journal.set_doing(1, Doing::Put { slot: 5 }),
            reading(&[b], &[Doubt::Put(a)]),
        ),
        (
            &|| journal.set_doing(0, Doing::Put { slot: 127 }),
            reading(&[], &[Doubt::Put(b), Doubt::Put(a)]),
        ),
        (
            &|| journal.set_slot(127, None),
            reading(&[], &[Doubt::Put(a)]),
        ),
        (
            &|| journal.set_doing(0, Doing::Nothing),
            reading(&[], &[Doubt::Put(a)]),
        ),
        (&|| journal.set_slot(5, None), reading(&[], &[])),
        (&|| journal.set_doing(1, Doing::Nothing), reading(&[], &[])),
    ];
    assert_eq!(journal.read(), Ok(reading(&[], &[])));
    for (write, expected) in writes {
        let before = words(&cells);
        write();
        let after = words(&cells);
        let changed = before.iter().zip(&after).filter(|(old, new)| old != new);
        assert_eq!(changed.count(), 1);
        assert_eq!(journal.read(), Ok(expected));
    }
}

#[test]
fn what_was_found_out_is_noted() {
    let cells = cells();
    let journal = Journal::new(&cells, CPUS);
    let block = |frame| Block {
        frame,
        order: Order::Base,
    };
    journal.set_slot(0, Some(block(0)));
    journal.set_slot(1, Some(block(1)));
    journal.set_doing(0, Doing::Put { slot: 1 });
    journal.set_doing(
        1,
        Doing::Get {
            order: Order::Base,
            slot: 2,
        },
    );
    assert!(journal.settle(&[block(1), block(2)]));
    assert!(journal.settle(&[block(3)]));
    let expected = Reading {
        held: vec![block(0)],
        lost: vec![block(1), block(2), block(3)],
        doubts: Vec::new(),
    };
    assert_eq!(journal.read(), Ok(expected));
    journal.clear();
    assert_eq!(journal.read(), Ok(reading(&[], &[])));
}

#[test]
fn words_of_no_journal_are_seen() {
    let cells = cells();
    let journal = Journal::new(&cells, 2);
    let slots = journal.slots();
    journal.set_doing(1, Doing::Put { slot: slots });
    let told = journal.read().unwrap_err();
    assert_eq!(told, "CPU 1: its word is none of a journal");
    journal.clear();
    cells.last().unwrap().store(1, Ordering::SeqCst);
    let told = journal.read().unwrap_err();
    assert!(told.starts_with("a slot's word is none of a journal"));
}

#[test]
fn phases_are_read_back() {
    let cells = cells();
    let journal = Journal::new(&cells, CPUS);
    for phase in [Phase::Opening, Phase::Working, Phase::Starting] {
        journal.set_phase(phase);
        assert_eq!(journal.phase(), phase);
    }
}
