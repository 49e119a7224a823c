//! What survives a cut.

use crate::common::{created, cut, drain};
use Order::{Base, Huge};
use lovarntek::{Answer, Order, Refusal, Zone};
use std::collections::BTreeSet;

/// A zone of 33 huge frames with some blocks held: base frames, and first frames of huge ones.
fn held() -> (Zone, BTreeSet<u64>, BTreeSet<u64>) {
    let mut zone = created(33, 2);
    let mut base = BTreeSet::new();
    let mut huge = BTreeSet::new();
    for turn in 0..700 {
        base.insert(zone.get(turn % 2, Base).unwrap());
    }
    for turn in 0..5 {
        huge.insert(zone.get(turn % 2, Huge).unwrap());
    }
    for frame in base.clone().into_iter().step_by(3) {
        assert_eq!(zone.put(frame % 2, frame, Base), Ok(()));
        base.remove(&frame);
    }
    let first = *huge.first().unwrap();
    assert_eq!(zone.put(1, first, Huge), Ok(()));
    huge.remove(&first);
    (zone, base, huge)
}

/// The frames that a zone of 33 huge frames has besides the blocks held.
fn others(base: &BTreeSet<u64>, huge: &BTreeSet<u64>) -> BTreeSet<u64> {
    (0..33 * 512)
        .filter(|frame| !base.contains(frame) && !huge.contains(&(frame / 512 * 512)))
        .collect()
}

#[test]
fn an_opened_zone_keeps_what_was_held() {
    let (mut zone, base, huge) = held();
    cut(&mut zone);
    assert_eq!(zone.open(), Ok(()));
    assert_eq!(zone.settled(), Ok(()));
    assert_eq!(drain(&mut zone, 1), others(&base, &huge));
    for &frame in &base {
        assert_eq!(zone.put(0, frame, Base), Ok(()));
    }
    for &frame in &huge {
        assert_eq!(zone.put(0, frame, Huge), Ok(()));
    }
    for frame in others(&base, &huge) {
        assert_eq!(zone.put(1, frame, Base), Ok(()));
    }
    assert_eq!(zone.close(), Ok(()));
    for number in 0..33 {
        assert_eq!(zone.tables().children[number], 512);
    }
}

#[test]
fn tables_read_back_are_opened() {
    let (mut zone, base, huge) = held();
    let kept = zone.tables();
    let mut zone = Zone::from_tables(
        kept.header.to_vec(),
        kept.words.to_vec(),
        kept.children.to_vec(),
        vec![u16::MAX; 2],
        vec![u64::MAX; 7],
    );
    assert_eq!(zone.open(), Ok(()));
    assert_eq!(drain(&mut zone, 6), others(&base, &huge));
}

#[test]
fn a_zone_that_is_not_opened_after_a_cut_is_damaged() {
    let (mut zone, ..) = held();
    cut(&mut zone);
    assert_eq!(zone.get(0, Base), Err(Refusal::Damaged));
    assert_eq!(zone.close(), Err(Refusal::Damaged));
}

/// The frames that a get of a run has lost when it is cut after some of its nine steps.
fn lost(order: Order, steps: u64) -> u64 {
    let mut zone = created(65, 2);
    let mut record = zone.begin_get(0, order).unwrap();
    for _ in 0..steps {
        assert_eq!(zone.step(&mut record), Answer::UnderWay);
    }
    let taken = u64::from(zone.tables().words[0].count_ones());
    cut(&mut zone);
    assert_eq!(zone.open(), Ok(()));
    assert_eq!(zone.settled(), Ok(()));
    assert_eq!(zone.get(0, order), Ok(taken));
    assert_eq!(free(&mut zone), 65 * 512 - order.frames() - taken);
    taken
}

#[test]
fn a_get_cut_after_any_step() {
    for order in Order::ALL.into_iter().filter(|&order| order != Huge) {
        for steps in 0..9 {
            // The bits are set by the last step but one, all at once.
            let taken = if steps == 8 { order.frames() } else { 0 };
            assert_eq!(lost(order, steps), taken, "{order:?}, {steps} steps");
        }
    }
}

#[test]
fn a_put_cut_after_any_step_has_given_back() {
    for order in Order::ALL {
        let steps = if order == Huge { 2 } else { 3 };
        for made in 1..=steps {
            let mut zone = created(65, 2);
            let frame = zone.get(0, order).unwrap();
            let mut record = zone.begin_put(1, frame, order).unwrap();
            for _ in 0..made {
                assert_eq!(zone.step(&mut record), Answer::UnderWay);
            }
            cut(&mut zone);
            assert_eq!(zone.open(), Ok(()));
            assert_eq!(free(&mut zone), 65 * 512);
            assert_eq!(zone.put(1, frame, order), Err(Refusal::NotTaken));
        }
    }
}

#[test]
fn an_open_cut_after_any_step() {
    let (mut zone, base, huge) = held();
    cut(&mut zone);
    let steps = 1 + 33 + 2 + 2;
    for made in 1..steps {
        let mut record = zone.open_first().unwrap();
        for _ in 1..made {
            assert_eq!(zone.open_step(&mut record), Answer::UnderWay);
        }
        cut(&mut zone);
    }
    let mut record = zone.open_first().unwrap();
    for _ in 2..steps {
        assert_eq!(zone.open_step(&mut record), Answer::UnderWay);
    }
    assert_eq!(zone.open_step(&mut record), Answer::Done(0));
    assert_eq!(drain(&mut zone, 0), others(&base, &huge));
}

#[test]
fn a_create_cut_is_not_a_zone() {
    let mut zone = created(1, 1);
    let steps = 1 + 8 + 1 + 1 + 1 + 1;
    for made in 1..steps {
        let mut record = zone.create_first(1).unwrap();
        for _ in 1..made {
            assert_eq!(zone.create_step(&mut record, 1), Answer::UnderWay);
        }
        cut(&mut zone);
        assert_eq!(zone.open(), Err(Refusal::NotAZone), "{made} steps");
    }
}

/// The children's counts, summed: the free frames where no get or put is under way.
fn free(zone: &mut Zone) -> u64 {
    let children = zone.tables().children;
    children.iter().map(|&child| u64::from(child & 0x3FF)).sum()
}
