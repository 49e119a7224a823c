//! The sessions of document 01.

use crate::common::{created, drain};
use Order::{Base, Huge};
use Refusal::{BadCpu, BadFrame, Misaligned, NoRoom, NotTaken};
use lovarntek::{Answer, Order, Record, Refusal, Run, Zone};
use std::collections::BTreeSet;

/// Runs a begun operation to its end; one that was refused makes no steps.
fn end(zone: &mut Zone, begun: Result<Record, Refusal>) -> Run {
    match begun {
        Ok(mut record) => {
            let run = zone.run(&mut record, u64::MAX);
            assert_eq!(record, Record::FINISHED);
            run
        }
        Err(refusal) => refused(refusal, 0),
    }
}

fn done(frame: u64, steps: u64) -> Run {
    Run {
        answer: Answer::Done(frame),
        steps,
    }
}

fn refused(refusal: Refusal, steps: u64) -> Run {
    Run {
        answer: Answer::Refused(refusal),
        steps,
    }
}

#[test]
fn the_worked_session() {
    let mut zone = created(65, 2);
    assert_eq!(zone.tables().header, [0x4C46_1400_8200_0000]);
    let get = |zone: &mut Zone, cpu, order| {
        let begun = zone.begin_get(cpu, order);
        end(zone, begun)
    };
    let put = |zone: &mut Zone, cpu, frame, order| {
        let begun = zone.begin_put(cpu, frame, order);
        end(zone, begun)
    };
    assert_eq!(get(&mut zone, 0, Base), done(0, 9));
    assert_eq!(get(&mut zone, 1, Base), done(16_384, 10));
    assert_eq!(zone.tables().cpus[1], 0x8010_3FFF_0000_0000);
    assert_eq!(get(&mut zone, 0, Huge), done(512, 4));
    assert_eq!(put(&mut zone, 1, 0, Base), done(0, 4));
    assert_eq!(zone.tables().trees[0], 0x8001);
    assert_eq!(put(&mut zone, 1, 0, Base), refused(NotTaken, 1));
    assert_eq!(get(&mut zone, 2, Base), refused(BadCpu, 0));
    assert_eq!(put(&mut zone, 0, 33_280, Base), refused(BadFrame, 0));
    assert_eq!(put(&mut zone, 0, 1, Huge), refused(Misaligned, 0));
    assert_eq!(zone.settled(), Ok(()));
    assert_eq!(zone.close(), Ok(()));
    assert_eq!(zone.tables().header, [0x4C46_1800_8200_0000]);
}

#[test]
fn single_steps_answer_as_a_run_does() {
    let mut zone = created(65, 2);
    for (cpu, order, frame, steps) in [(0, Base, 0, 9), (1, Base, 16_384, 10), (0, Huge, 512, 4)] {
        let mut record = zone.begin_get(cpu, order).unwrap();
        for _ in 1..steps {
            assert_eq!(zone.step(&mut record), Answer::UnderWay);
            assert_ne!(record, Record::FINISHED);
        }
        assert_eq!(zone.step(&mut record), Answer::Done(frame));
        assert_eq!(record, Record::FINISHED);
    }
}

#[test]
fn a_run_short_of_steps_goes_on() {
    let mut zone = created(65, 2);
    let mut record = zone.begin_get(0, Base).unwrap();
    for (fuel, answer, steps) in [
        (0, Answer::UnderWay, 1),
        (4, Answer::UnderWay, 4),
        (4, Answer::Done(0), 4),
    ] {
        assert_eq!(zone.run(&mut record, fuel), Run { answer, steps });
    }
}

#[test]
fn a_run_without_fuel_makes_a_step() {
    let mut zone = created(65, 2);
    for words in [[0, 0], [u64::MAX, 0]] {
        for run in [
            zone.tables().run(&mut words.clone(), 0),
            zone.tables().create_run(&mut words.clone(), 65, 0),
            zone.tables().open_run(&mut words.clone(), 0),
        ] {
            assert_eq!((run.number, run.steps), (11, 1));
        }
    }
}

#[test]
fn one_huge_frame_filled() {
    let mut zone = created(1, 1);
    for frame in 0..512 {
        assert_eq!(zone.get(0, Base), Ok(frame));
    }
    assert_eq!(zone.get(0, Base), Err(NoRoom));
    assert_eq!(zone.put(0, 7, Base), Ok(()));
    assert_eq!(zone.get(0, Base), Ok(7));
    assert_eq!(zone.get(0, Base), Err(NoRoom));
    assert_eq!(zone.close(), Ok(()));
}

#[test]
fn one_base_frame_taken_leaves_no_huge_one() {
    let mut zone = created(1, 1);
    assert_eq!(zone.get(0, Base), Ok(0));
    assert_eq!(zone.get(0, Huge), Err(NoRoom));
    assert_eq!(zone.put(0, 0, Base), Ok(()));
    assert_eq!(zone.get(0, Huge), Ok(0));
    assert_eq!(zone.put(0, 0, Base), Err(NotTaken));
}

#[test]
fn every_frame_once() {
    let mut zone = created(33, 2);
    assert_eq!(zone.get(1, Huge), Ok(0));
    let taken = drain(&mut zone, 0);
    assert!(taken.into_iter().eq(512..33 * 512));
    assert_eq!(zone.get(1, Base), Err(NoRoom));
}

#[test]
fn a_closed_zone_is_opened_again() {
    let mut zone = created(33, 2);
    assert_eq!(zone.get(0, Base), Ok(0));
    assert_eq!(zone.close(), Ok(()));
    assert_eq!(zone.get(0, Base), Err(Refusal::Closed));
    assert_eq!(zone.close(), Err(Refusal::Closed));
    assert_eq!(zone.settled(), Err(Refusal::Closed));
    assert_eq!(zone.open(), Ok(()));
    assert_eq!(zone.get(0, Base), Ok(1));
}

#[test]
fn tables_lent_as_slices() {
    let (mut header, mut words, mut cpus) = ([u64::MAX], [u64::MAX; 8], [u64::MAX; 2]);
    let (mut children, mut trees) = ([u16::MAX], [u16::MAX]);
    let mut zone = Zone::from_tables(
        &mut header[..],
        &mut words[..],
        &mut children[..],
        &mut trees[..],
        &mut cpus[..],
    );
    let mut record = zone.create_first(1).unwrap();
    let mut steps = 1;
    let last = loop {
        let answer = zone.create_step(&mut record, 1);
        steps += 1;
        if answer != Answer::UnderWay {
            break answer;
        }
    };
    assert_eq!((last, steps), (Answer::Done(0), 1 + 8 + 1 + 1 + 2 + 1));
    assert_eq!(zone.get(1, Base), Ok(0));
    assert_eq!((header, words[0]), ([0x4C46_1400_0200_0000], 1));
    assert_eq!(children, [511]);
}

/// A get may find no room while others are under way; it ends within its bound all the same, and no frame is given twice.
#[test]
fn steps_of_64_cpus_in_turn() {
    let mut zone = created(2, 64);
    let begun = |cpu| zone.begin_get(cpu, Base).unwrap();
    let mut records: Vec<_> = (0..64).map(begun).collect();
    let mut frames = BTreeSet::new();
    for _ in 0..330 * (3 + 64 + 33) {
        records.retain_mut(|record| match zone.step(record) {
            Answer::UnderWay => true,
            Answer::Done(frame) => {
                assert!(frames.insert(frame), "frame {frame} twice");
                false
            }
            Answer::Refused(refusal) => {
                assert_eq!(refusal, NoRoom);
                false
            }
        });
    }
    assert_eq!(records, []);
    assert_eq!(zone.settled(), Ok(()));
    let others = drain(&mut zone, 0);
    assert!(frames.is_disjoint(&others));
    assert_eq!(frames.len() + others.len(), 1024);
}
