//! Runs of 2 to 64 frames.

use crate::common::{created, drain};
use Order::{Base, Huge, Run2, Run8, Run32, Run64};
use Refusal::{BadFrame, Misaligned, NoRoom, NotTaken};
use lovarntek::{Answer, Order, Refusal, Run, Zone};
use std::collections::BTreeSet;

/// The orders of runs.
fn runs() -> impl Iterator<Item = Order> {
    Order::ALL
        .into_iter()
        .filter(|&order| order != Base && order != Huge)
}

/// Runs a get to its end: its frame and its steps.
fn got(zone: &mut Zone, cpu: u64, order: Order) -> (u64, u64) {
    let mut record = zone.begin_get(cpu, order).unwrap();
    match zone.run(&mut record, u64::MAX) {
        Run {
            answer: Answer::Done(frame),
            steps,
        } => (frame, steps),
        other => panic!("{other:?}"),
    }
}

#[test]
fn a_zone_filled_by_each_order() {
    for order in runs() {
        let mut zone = created(1, 1);
        let frames = || (0..512).step_by(order.frames() as usize);
        for frame in frames() {
            assert_eq!(zone.get(0, order), Ok(frame));
        }
        assert_eq!(zone.get(0, order), Err(NoRoom));
        assert_eq!(zone.get(0, Base), Err(NoRoom));
        assert_eq!(zone.tables().words, [u64::MAX; 8]);
        for frame in frames() {
            assert_eq!(zone.put(0, frame, order), Ok(()));
        }
        assert_eq!(zone.put(0, 0, order), Err(NotTaken));
        assert_eq!(zone.close(), Ok(()));
        let tables = zone.tables();
        assert_eq!(
            (tables.words, tables.children),
            (&mut [0; 8][..], &mut [512][..])
        );
    }
}

#[test]
fn one_store_takes_a_run_and_one_gives_it_back() {
    for order in runs() {
        let size = order.frames();
        let mut zone = created(65, 2);
        let mut record = zone.begin_get(0, order).unwrap();
        let mut words = BTreeSet::new();
        for _ in 0..9 {
            let _ = zone.step(&mut record);
            words.insert(zone.tables().words[0]);
        }
        let taken = u64::MAX >> (64 - size);
        assert_eq!(words, BTreeSet::from([0, taken]));
        assert_eq!(u64::from(zone.tables().children[0]), 512 - size);
        assert_eq!(zone.tables().cpus[0], 1 << 63 | (16_384 - size) << 32);
        let mut record = zone.begin_put(1, 0, order).unwrap();
        assert_eq!(zone.step(&mut record), Answer::UnderWay);
        assert_eq!(zone.tables().words[0], 0);
        assert_eq!(u64::from(zone.tables().children[0]), 512 - size);
        assert_eq!(zone.step(&mut record), Answer::UnderWay);
        assert_eq!(zone.tables().children[0], 512);
        assert_eq!(zone.step(&mut record), Answer::UnderWay);
        assert_eq!(zone.step(&mut record), Answer::Done(0));
        assert_eq!(u64::from(zone.tables().trees[0]), 0x8000 | size);
    }
}

/// The lowest aligned run of the first word that has one, and the steps to it.
#[test]
fn the_lowest_fitting_run() {
    let mut zone = created(65, 2);
    assert_eq!(got(&mut zone, 0, Base), (0, 9));
    assert_eq!(got(&mut zone, 0, Run8), (8, 4));
    assert_eq!(got(&mut zone, 0, Run2), (2, 4));
    assert_eq!(got(&mut zone, 0, Run32), (32, 4));
    assert_eq!(got(&mut zone, 0, Run64), (64, 5));
    assert_eq!(got(&mut zone, 0, Base), (1, 4));
    assert_eq!(zone.tables().words[..2], [0xFFFF_FFFF_0000_FF0F, u64::MAX]);
    assert_eq!(got(&mut zone, 0, Run32), (128, 6));
    assert_eq!(zone.settled(), Ok(()));
}

/// Every second frame is free: enough for any run, but none fits.
#[test]
fn a_fragmented_zone_has_no_run() {
    let mut zone = created(1, 1);
    for frame in 0..512 {
        assert_eq!(zone.get(0, Base), Ok(frame));
    }
    for frame in (0..512).step_by(2) {
        assert_eq!(zone.put(0, frame, Base), Ok(()));
    }
    for order in runs() {
        assert_eq!(zone.get(0, order), Err(NoRoom));
        assert_eq!(zone.settled(), Ok(()));
        assert_eq!(zone.tables().children, [256]);
    }
    assert_eq!(zone.get(0, Base), Ok(0));
    assert_eq!(zone.put(0, 3, Base), Ok(()));
    assert_eq!(zone.get(0, Run2), Ok(2));
    assert_eq!(drain(&mut zone, 0).len(), 254);
}

#[test]
fn a_run_goes_back_in_parts() {
    let mut zone = created(1, 1);
    for order in runs() {
        let half = order.frames() / 2;
        let smaller = Order::ALL[order.number() as usize - 1];
        assert_eq!(zone.get(0, order), Ok(0));
        assert_eq!(zone.put(0, half, smaller), Ok(()));
        assert_eq!(zone.put(0, 0, order), Err(NotTaken));
        assert_eq!(zone.put(0, half, smaller), Err(NotTaken));
        assert_eq!(zone.put(0, 0, smaller), Ok(()));
        assert_eq!(zone.tables().words[0], 0);
        assert_eq!(zone.settled(), Ok(()));
    }
}

#[test]
fn neighbours_go_back_as_one_run() {
    let mut zone = created(1, 1);
    for frame in 0..8 {
        assert_eq!(zone.get(0, Base), Ok(frame));
    }
    assert_eq!(zone.put(0, 0, Run8), Ok(()));
    assert_eq!(zone.get(0, Huge), Ok(0));
}

#[test]
fn misaligned_runs() {
    let mut zone = created(33, 2);
    let before = zone.clone();
    for order in runs() {
        let size = order.frames();
        for frame in [1, size / 2, size + 1, 33 * 512 - 1] {
            assert_eq!(zone.put(0, frame, order), Err(Misaligned));
        }
        assert_eq!(zone.put(0, 33 * 512 + 1, order), Err(BadFrame));
        assert_eq!(zone.put(0, size, order), Err(NotTaken));
    }
    assert_eq!(zone, before);
}

#[test]
fn a_run_inside_a_huge_frame_is_not_taken() {
    let mut zone = created(1, 1);
    assert_eq!(zone.get(0, Huge), Ok(0));
    for order in runs() {
        assert_eq!(zone.get(0, order), Err(NoRoom));
        assert_eq!(zone.put(0, 64, order), Err(NotTaken));
    }
    assert_eq!(zone.put(0, 0, Huge), Ok(()));
    assert_eq!(zone.get(0, Run64), Ok(0));
    assert_eq!(zone.get(0, Huge), Err(NoRoom));
}

/// Gets of all orders by two CPUs: no frame twice, and all of them free again at the end.
#[test]
fn blocks_of_all_orders_do_not_overlap() {
    let mut zone = created(33, 2);
    let mut taken = BTreeSet::new();
    let mut blocks = Vec::new();
    for turn in 0..400 {
        let order = Order::ALL[turn * 5 % 8];
        if let Ok(frame) = zone.get(turn as u64 % 2, order) {
            assert_eq!(frame % order.frames(), 0);
            for frame in frame..frame + order.frames() {
                assert!(taken.insert(frame), "frame {frame} twice");
            }
            blocks.push((frame, order));
        }
    }
    assert_eq!(zone.settled(), Ok(()));
    for wanted in Order::ALL {
        assert!(blocks.iter().any(|&(_, order)| order == wanted));
    }
    for (frame, order) in blocks {
        assert_eq!(zone.put(frame % 2, frame, order), Ok(()));
    }
    assert_eq!(zone.close(), Ok(()));
    assert_eq!(zone.tables().children, [512; 33]);
}
