//! Gets and puts begun and run in one call: as begun by one and run by another.

use crate::common::{created, cut};
use lovarntek::calls::Ran;
use lovarntek::{Answer, Order, Record, Refusal, Run, Zone};
use std::collections::BTreeSet;

const MOST: u64 = u64::MAX;
const FRAMES: u64 = 33 * 512;

/// A get, or a put of a frame.
#[derive(Clone, Copy, Debug)]
struct Asked {
    cpu: u64,
    frame: Option<u64>,
    order: u64,
}

fn one_call(zone: &mut Zone, record: &mut [u64], asked: Asked, fuel: u64) -> Ran {
    let Asked { cpu, frame, order } = asked;
    match frame {
        None => zone.tables().get_run(record, cpu, order, fuel),
        Some(frame) => zone.tables().put_run(record, cpu, frame, order, fuel),
    }
}

fn two_calls(zone: &mut Zone, record: &mut [u64], asked: Asked, fuel: u64) -> Ran {
    let Asked { cpu, frame, order } = asked;
    let begun = match frame {
        None => zone.tables().get(record, cpu, order),
        Some(frame) => zone.tables().put(record, cpu, frame, order),
    };
    match begun.number {
        1 if fuel > 0 => zone.tables().run(record, fuel),
        number => Ran {
            number,
            frame: begun.frame,
            steps: 0,
        },
    }
}

/// Makes both, for every fuel and record lent. The numbers answered.
fn compared(zone: &Zone, asked: Asked) -> BTreeSet<u64> {
    let mut numbers = BTreeSet::new();
    let begun = created(33, 2).begin_get(1, Order::Run4).unwrap();
    let records = [&[0, 0], &[MOST, MOST], &begun.words()[..]];
    let others = [&[][..], &[7], &[7; 3], &[7; 64]];
    for fuel in [0, 1, 2, 3, 8, 9, 10, 1_000, MOST] {
        for lent in records.into_iter().chain(others) {
            let (mut one, mut two) = (zone.clone(), zone.clone());
            let (mut first, mut second) = (lent.to_vec(), lent.to_vec());
            let ran = one_call(&mut one, &mut first, asked, fuel);
            assert_eq!(
                ran,
                two_calls(&mut two, &mut second, asked, fuel),
                "{asked:?}, fuel {fuel}"
            );
            assert_eq!(first, second, "{asked:?}, fuel {fuel}");
            assert!(one == two, "tables after {asked:?}, fuel {fuel}");
            assert!(ran.steps <= fuel);
            if lent.len() != 2 {
                assert_eq!((&first[..], ran.steps), (lent, 0));
                assert!(one == *zone);
            } else if ran.number != 1 {
                assert_eq!(first, [0, 0]);
            } else {
                assert_eq!(ran.steps, fuel);
            }
            numbers.insert(ran.number);
        }
    }
    numbers
}

/// Every get and put of some numbers, most of them right.
fn asked() -> Vec<Asked> {
    let mut asked = Vec::new();
    for cpu in [0, 1, 2, MOST] {
        for order in [0, 1, 3, 6, 7, 8, 9, 10, MOST] {
            let frames = [0, 1, 8, 64, 512, 513, 1_024, FRAMES - 512, FRAMES, MOST];
            let puts = frames.into_iter().map(Some);
            for frame in puts.chain([None]) {
                asked.push(Asked { cpu, frame, order });
            }
        }
    }
    asked
}

/// The numbers that gets and puts of a zone are answered with.
fn numbers(zone: &Zone) -> [BTreeSet<u64>; 2] {
    let mut numbers = [BTreeSet::new(), BTreeSet::new()];
    for asked in asked() {
        numbers[usize::from(asked.frame.is_some())].extend(compared(zone, asked));
    }
    numbers
}

/// A zone of 33 huge frames: frame 0, a run at 8, one at 64 and the huge frame at 512 are held.
fn used() -> Zone {
    let mut zone = created(33, 2);
    let orders = [Order::Base, Order::Run8, Order::Run64, Order::Huge];
    let got = orders.map(|order| zone.get(0, order));
    assert_eq!(got, [Ok(0), Ok(8), Ok(64), Ok(512)]);
    zone
}

fn set(numbers: &[u64]) -> BTreeSet<u64> {
    numbers.iter().copied().collect()
}

#[test]
fn a_zone_in_use() {
    let [gets, puts] = numbers(&used());
    assert_eq!(gets, set(&[0, 1, 3, 7, 8]));
    assert_eq!(puts, set(&[0, 1, 3, 4, 5, 6, 7, 8]));
}

#[test]
fn a_zone_without_room() {
    let mut zone = created(33, 2);
    while zone.get(0, Order::Huge).is_ok() {}
    let [gets, puts] = numbers(&zone);
    assert_eq!(gets, set(&[1, 2, 3, 7, 8]));
    assert_eq!(puts, set(&[0, 1, 3, 4, 5, 6, 7, 8]));
}

#[test]
fn a_zone_that_is_not_open() {
    let mut closed = used();
    assert_eq!(closed.close(), Ok(()));
    assert_eq!(numbers(&closed), [set(&[10]), set(&[10])]);
    let mut malformed = used();
    malformed.tables().header[0] ^= 1;
    assert_eq!(numbers(&malformed), [set(&[9]), set(&[9])]);
}

#[test]
fn damaged_entries() {
    let mut lost = used();
    cut(&mut lost);
    let [gets, puts] = numbers(&lost);
    assert_eq!(gets, set(&[1, 3, 7, 8, 12]));
    assert_eq!(puts, set(&[1, 3, 4, 5, 6, 7, 8, 12]));
    let mut children = used();
    children.tables().children.fill(u16::MAX);
    let [gets, puts] = numbers(&children);
    assert_eq!(gets, set(&[1, 3, 7, 8, 12]));
    assert_eq!(puts, set(&[1, 3, 4, 5, 6, 7, 8, 12]));
}

#[test]
fn wrong_lengths() {
    let mut good = used();
    let kept = good.tables();
    let header = kept.header.to_vec();
    let (words, cpus) = (kept.words.to_vec(), kept.cpus.to_vec());
    let (children, trees) = (kept.children.to_vec(), kept.trees.to_vec());
    let few = |table: &[u64]| table[1..].to_vec();
    let zones = [
        (few(&header), words.clone(), trees.clone(), cpus.clone()),
        (header.clone(), few(&words), trees.clone(), cpus.clone()),
        (header.clone(), words.clone(), vec![0; 3], cpus.clone()),
        (header.clone(), words.clone(), trees.clone(), vec![]),
        (header.clone(), words.clone(), trees.clone(), vec![0; 65]),
    ];
    for (header, words, trees, cpus) in zones {
        let zone = Zone::from_tables(header, words, children.clone(), trees, cpus);
        assert_eq!(numbers(&zone), [set(&[8]), set(&[8])]);
    }
    let zone = Zone::from_tables(header, words, children[1..].to_vec(), trees, cpus);
    assert_eq!(numbers(&zone), [set(&[8]), set(&[8])]);
}

#[test]
fn out_of_steps_it_goes_on() {
    for fuel in 0..12 {
        let mut zone = created(65, 2);
        let mut record = Record::from_words([MOST, MOST]);
        let run = zone.get_run(&mut record, 0, Order::Base, fuel);
        let (answer, steps) = match fuel {
            0..9 => (Answer::UnderWay, fuel),
            _ => (Answer::Done(0), 9),
        };
        assert_eq!(run, Run { answer, steps });
        for step in fuel + 1..=9 {
            assert_ne!(record, Record::FINISHED);
            let last = step == 9;
            let answer = if last {
                Answer::Done(0)
            } else {
                Answer::UnderWay
            };
            assert_eq!(zone.step(&mut record), answer);
        }
        assert_eq!(record, Record::FINISHED);
        let run = zone.put_run(&mut record, 1, 0, Order::Base, 1);
        let (answer, steps) = (Answer::UnderWay, 1);
        assert_eq!(run, Run { answer, steps });
        let (answer, steps) = (Answer::Done(0), 3);
        assert_eq!(zone.run(&mut record, MOST), Run { answer, steps });
        assert_eq!(zone.settled(), Ok(()));
    }
}

#[test]
fn a_refused_beginning_makes_no_step() {
    let mut zone = created(33, 2);
    let before = zone.clone();
    let mut record = zone.begin_get(0, Order::Base).unwrap();
    let refused = |refusal, steps| Run {
        answer: Answer::Refused(refusal),
        steps,
    };
    let run = zone.get_run(&mut record, 2, Order::Base, MOST);
    assert_eq!(run, refused(Refusal::BadCpu, 0));
    assert_eq!(record, Record::FINISHED);
    let run = zone.put_run(&mut record, 0, 1, Order::Huge, MOST);
    assert_eq!(run, refused(Refusal::Misaligned, 0));
    // The first step of the put is made, and refused.
    let run = zone.put_run(&mut record, 0, 0, Order::Huge, MOST);
    assert_eq!(run, refused(Refusal::NotTaken, 1));
    assert_eq!(zone, before);
}
