//! Sample packed words, and tables after known requests.

use crate::common::Packed;
use reference::answer::Answer;
use reference::get::Class;
use reference::layout::{Child, CpuEntry, Header, Reservation, Run, Tree, Word};
use reference::operation::Order;
use reference::zone::Zone;

#[test]
fn headers() {
    assert_eq!(Header::running(65).join(), 0x4C46_1400_8200_0000);
    assert_eq!(Header::clean(65).join(), 0x4C46_1800_8200_0000);
    assert_eq!(Header::running(65_536).join(), 0x4C46_1600_0000_0000);
    assert_eq!(Header::split(0x4C46_1400_8200_0000), Header::running(65));
}

#[test]
fn cpu_entry() {
    let held = Reservation {
        tree: 1,
        start: 0,
        count: 16_383,
    };
    assert_eq!(CpuEntry::from(held).join(), 0x8010_3FFF_0000_0000);
    assert_eq!(CpuEntry::ABSENT.join(), 0);
}

#[test]
fn children() {
    assert_eq!(Child::FREE.join(), 0x0200);
    assert_eq!(Child::TAKEN.join(), 0x8000);
    for bits in [0x8001, 0x0201, 0x0400, 0x4000, 0xFFFF] {
        assert!(!Child::split(bits).well_formed(), "{bits:#06x}");
    }
}

#[test]
fn splitting_keeps_every_bit() {
    for bits in [0, 1, 0x8001, 0x7FFF, 0xA5A5, u16::MAX] {
        assert_eq!(Child::split(bits).join(), bits);
        assert_eq!(Tree::split(bits).join(), bits);
    }
    for bits in [0, 1, 0x0123_4567_89AB_CDEF, 1 << 63, u64::MAX] {
        assert_eq!(Header::split(bits).join(), bits);
        assert_eq!(CpuEntry::split(bits).join(), bits);
    }
}

#[test]
fn bits_of_a_word() {
    let lowest = |word: u64| Word(word).free_runs(1).next();
    assert_eq!(lowest(0b0111), Some(3));
    assert_eq!(lowest(u64::MAX), None);
    assert_eq!(Word(0).free_runs(1).next_back(), Some(63));
    assert_eq!(Word(0xFF).zeros(), 56);
    let last = Run { bit: 63, size: 1 };
    assert_eq!(Word(0).set(last), Word(1 << 63));
    assert_eq!(Word(0).set(last).clear(last), Word(0));
}

#[test]
fn runs_of_a_word() {
    let free = |word: u64, size| Word(word).free_runs(size).collect::<Vec<_>>();
    // Bits 1 and 2 are clear, but make no run.
    assert_eq!(free(0b1001, 2)[..2], [4, 6]);
    assert_eq!(free(1, 32), [32]);
    assert_eq!(free(1 << 63, 32), [0]);
    assert_eq!(free(0, 64), [0]);
    assert!(free(1 << 40, 64).is_empty());
    assert!(free(0x5555_5555_5555_5555, 2).is_empty());
    assert_eq!(free(0x00FF_FFFF_00FF_FFFF, 8), [24, 56]);
    let run = Run { bit: 8, size: 8 };
    assert_eq!(Word(1).set(run), Word(0xFF01));
    assert_eq!(Word(u64::MAX).clear(run), Word(!0xFF00));
    let whole = Run { bit: 0, size: 64 };
    assert_eq!(Word(0).set(whole), Word(u64::MAX));
    assert_eq!(Word(u64::MAX).clear(whole), Word(0));
    let some = Word(0x0100);
    assert!(!some.free(run) && !some.full(run));
    assert!(Word(!0xFF00).free(run) && Word(0xFF00).full(run));
}

#[test]
fn orders_and_their_sizes() {
    let numbers: Vec<u64> = (0..100)
        .filter(|&number| Order::from_number(number).is_some())
        .collect();
    assert_eq!(numbers, [0, 1, 2, 3, 4, 5, 6, 9]);
    let orders = || {
        numbers
            .iter()
            .filter_map(|&number| Order::from_number(number))
    };
    assert!(orders().map(Order::size).eq([1, 2, 4, 8, 16, 32, 64, 512]));
    assert!(orders().map(Order::number).eq(numbers.iter().copied()));
    assert_eq!(Order::from_number(1 << 32), None);
}

#[test]
fn class_edges_hold_for_every_tree() {
    let zone = Zone::blank(33, 1);
    for tree in 0..2 {
        assert_eq!(zone.class(tree, 0), Class::Allocated);
        assert_eq!(zone.class(tree, 2_047), Class::Allocated);
        assert_eq!(zone.class(tree, 2_048), Class::Partial);
        assert_eq!(zone.class(tree, 14_336), Class::Partial);
        assert_eq!(zone.class(tree, 14_337), Class::Free);
    }
}

#[test]
fn created_tables() {
    let packed = Packed::created(65, 2);
    assert_eq!(packed.header, [0x4C46_1400_8200_0000]);
    assert!(packed.words.iter().all(|&word| word == 0));
    assert!(packed.children.iter().all(|&child| child == 0x0200));
    assert_eq!(packed.trees, [16_384, 16_384, 512]);
    assert_eq!(packed.cpus, [0, 0]);
}

#[test]
fn worked_requests_on_packed_tables() {
    let mut packed = Packed::created(65, 2);
    assert_eq!(packed.get(0, 0), Answer::Done(0));
    assert_eq!(packed.get(1, 0), Answer::Done(16_384));
    assert_eq!(packed.cpus[1], 0x8010_3FFF_0000_0000);
    assert_eq!(packed.get(0, 9), Answer::Done(512));
    assert_eq!(packed.children[..3], [0x01FF, 0x8000, 0x0200]);
    assert_eq!(packed.words[0], 1);
    assert_eq!(packed.trees, [0x8000, 0x8000, 512]);
    assert_eq!(packed.put(1, 0, 0), Answer::Done(0));
    assert_eq!(packed.trees[0], 0x8001);
    assert_eq!(packed.words[0], 0);
    // Tree 0, start child 1, 16,384 less 1 less 512.
    assert_eq!(packed.cpus[0], 1 << 63 | 1 << 47 | 15_871 << 32);
}

#[test]
fn create_stores_one_entry_a_step() {
    let (n, cpus) = (33, 3);
    let mut packed = Packed::filled(n, cpus);
    let mut before = packed.clone();
    let mut answer = packed.tables().create_first(n as u64);
    assert_eq!(packed.header, [0]);
    let mut steps = 1;
    while let Answer::UnderWay(record) = answer {
        assert_eq!(packed.changes(&before), 1);
        before = packed.clone();
        answer = packed.tables().create_next(n as u64, record);
        steps += 1;
    }
    assert_eq!(steps, 1 + 8 * n + n + 2 + cpus + 1);
    assert_eq!(packed.changes(&before), 1);
    assert_eq!(packed.header, [Header::running(n).join()]);
}
