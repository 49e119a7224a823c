//! Largest numbers everywhere.

use crate::common::{CALLS, created, refused};
use lovarntek::{Order, Refusal, Zone};

const MOST: u64 = u64::MAX;

#[test]
fn largest_numbers() {
    let mut zone = created(33, 2);
    let before = zone.clone();
    let record = &mut [MOST; 2];
    let mut tables = zone.tables();
    assert_eq!(tables.get(record, MOST, MOST).number, 7);
    assert_eq!(tables.get(record, 1, MOST).number, 3);
    assert_eq!(tables.put(record, MOST, MOST, MOST).number, 7);
    assert_eq!(tables.put(record, 1, MOST, MOST).number, 3);
    assert_eq!(tables.put(record, 1, MOST, 0).number, 4);
    assert_eq!(tables.put(record, 1, MOST, 6).number, 4);
    assert_eq!(tables.put(record, 1, MOST, 9).number, 4);
    assert_eq!(tables.create(record, MOST).number, 14);
    assert_eq!(record, &[0, 0]);
    *record = [MOST; 2];
    assert_eq!(tables.get_run(record, MOST, MOST, MOST).number, 7);
    assert_eq!(tables.get_run(record, 1, MOST, MOST).number, 3);
    assert_eq!(tables.put_run(record, MOST, MOST, MOST, MOST).number, 7);
    assert_eq!(tables.put_run(record, 1, MOST, MOST, MOST).number, 3);
    assert_eq!(tables.put_run(record, 1, MOST, 9, MOST).number, 4);
    assert_eq!(record, &[0, 0]);
    *record = [MOST; 2];
    assert_eq!(tables.create_step(record, MOST).number, 14);
    *record = [MOST; 2];
    assert_eq!(tables.create_run(record, MOST, MOST).number, 14);
    assert_eq!(zone, before);
    assert_eq!(zone.get(MOST, Order::Base), Err(Refusal::BadCpu));
    assert_eq!(zone.put(MOST, 0, Order::Base), Err(Refusal::BadCpu));
    assert_eq!(zone.put(0, MOST, Order::Base), Err(Refusal::BadFrame));
    assert_eq!(zone.put(0, MOST, Order::Huge), Err(Refusal::BadFrame));
    assert_eq!(zone, before);
}

#[test]
fn orders_between() {
    let mut zone = created(33, 2);
    let record = &mut [0; 2];
    for order in [7, 8].into_iter().chain(10..70) {
        assert_eq!(zone.tables().get(record, 0, order).number, 3);
        assert_eq!(zone.tables().put(record, 0, 0, order).number, 3);
    }
}

#[test]
fn tables_full_of_ones() {
    let filled = |header| {
        Zone::from_tables(
            vec![header],
            vec![MOST; 8 * 33],
            vec![u16::MAX; 33],
            vec![u16::MAX; 2],
            vec![MOST; 2],
        )
    };
    for call in CALLS.iter().filter(|call| call.reads_header) {
        let after = if call.has_record { [0, 0] } else { [MOST; 2] };
        refused(&mut filled(MOST), call, &mut [MOST; 2], 9, &after);
    }
    let mut zone = filled(created(33, 2).tables().header[0]);
    let before = zone.clone();
    assert_eq!(zone.open(), Err(Refusal::Damaged));
    assert_eq!(zone.close(), Err(Refusal::Damaged));
    assert_eq!(zone.settled(), Err(Refusal::Damaged));
    assert_eq!(zone.get(0, Order::Base), Err(Refusal::Damaged));
    assert_eq!(zone.get(1, Order::Huge), Err(Refusal::Damaged));
    assert_eq!(zone.put(0, 0, Order::Huge), Err(Refusal::Damaged));
    assert_eq!(zone, before);
    // Every bit is set, so the put clears one before it meets the child.
    assert_eq!(zone.put(0, 0, Order::Base), Err(Refusal::Damaged));
    assert_eq!(zone.tables().words[0], MOST - 1);
}

#[test]
fn counts_that_do_not_add_up() {
    let mut zone = created(33, 2);
    zone.tables().trees[1] -= 1;
    assert_eq!(zone.settled(), Err(Refusal::NotSettled));
    assert_eq!(zone.close(), Err(Refusal::NotSettled));
    assert_eq!(zone.open(), Ok(()));
    assert_eq!(zone.close(), Ok(()));
}
