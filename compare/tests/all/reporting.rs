//! A difference in each table, the record and the answer is named.

use compare::call::{Call, Outcome};
use compare::difference::{self, Unequal, What};
use compare::fault::{Fault, InRuns};
use compare::pair::{Pair, Side};
use compare::player::{Player, Slot, Stop};
use compare::states;
use compare::translate::Shape;
use reference::fault::Fault as Rule;
use reference::layout::{Child, CpuEntry, Header, Tree, Word};
use reference::rng::Rng;
use reference::zone::Zone;

const SHAPE: Shape = Shape { n: 700, cpus: 3 };

/// A table's name in a report and its index, after a change of the reference's zone.
fn reported(change: impl Fn(&mut Zone)) -> Unequal {
    let mut pair = Pair::new(states::fresh(SHAPE), None, Side::default());
    change(&mut pair.model.zone);
    let (_, unequal) = pair.call(&Call::Get { cpu: 0, order: 0 }, &mut [0, 0]);
    unequal.expect("a difference")
}

#[test]
fn each_table_is_named() {
    let header = Header::running(700).join();
    let unequal = |what, library, reference| Unequal {
        what,
        library,
        reference,
    };
    assert_eq!(
        reported(|zone| zone.words[5_599] = Word(3)),
        unequal(What::Word(5_599), 0, 3)
    );
    assert_eq!(
        reported(|zone| zone.children[300] = Child::TAKEN),
        unequal(What::Child(300), 0x0200, 0x8000)
    );
    assert_eq!(
        reported(|zone| zone.trees[21] = Tree::split(7)),
        unequal(What::Tree(21), 28 * 512, 7)
    );
    assert_eq!(
        reported(|zone| zone.cpus[2] = CpuEntry::split(1 << 63)),
        unequal(What::Cpu(2), 0, 1 << 63)
    );
    let mut pair = Pair::new(states::fresh(SHAPE), None, Side::default());
    pair.model.zone.header = vec![Header::clean(700)];
    let found = difference::tables(&pair.library, &pair.model.zone);
    let clean = Header::clean(700).join();
    assert_eq!(found, Some(unequal(What::Header(0), header, clean)));
}

#[test]
fn the_first_entry_is_named() {
    let found = reported(|zone| {
        zone.words[400] = Word(1);
        zone.words[4_000] = Word(1);
        zone.cpus[0] = CpuEntry::split(9);
    });
    assert_eq!(found.what, What::Word(400));
}

#[test]
fn answers_and_records_are_named() {
    let outcome = |number, frame, steps| Outcome {
        number,
        frame,
        steps: Some(steps),
    };
    let what = |other| difference::answers(&outcome(0, 5, 3), &other).map(|found| found.what);
    assert_eq!(what(outcome(0, 5, 3)), None);
    assert_eq!(what(outcome(1, 5, 3)), Some(What::Answer));
    assert_eq!(what(outcome(0, 6, 3)), Some(What::Frame));
    assert_eq!(what(outcome(0, 5, 4)), Some(What::Steps));
    let records = |other: &[u64]| difference::records(&[1, 2], other).map(|found| found.what);
    assert_eq!(records(&[1, 2]), None);
    assert_eq!(records(&[0, 2]), Some(What::Record(0)));
    assert_eq!(records(&[1, 3]), Some(What::Record(1)));
}

/// A get of the given step, with a fault of the reference.
fn stopped(fault: Fault) -> String {
    let mut player = Player::new(Rng::new(1, 0), Some(fault), 100);
    player.load(states::fresh(Shape { n: 1, cpus: 1 }));
    let mut slot = Slot::new();
    let begun = player.call(Call::Get { cpu: 0, order: 0 }, &mut slot);
    assert_eq!(begun.unwrap().number, 1);
    match player.finish(&mut slot) {
        Err(Stop::Differs(difference)) => {
            format!("call {}, {difference}", difference.number)
        }
        other => panic!("{other:?}"),
    }
}

#[test]
fn a_report_has_the_call_and_both_values() {
    let report = stopped(Fault::Rule(Rule::BitBeforeCount));
    let lines: Vec<&str> = report.lines().collect();
    assert_eq!(
        lines,
        [
            "call 7, step on 1 huge frames and 1 CPUs, record 0x0c00000500000000 0x0000000000000000",
            "  children 0: library 511 (0x1ff), reference 512 (0x200)",
            "  library answers 1, reference answers 1",
        ]
    );
}

#[test]
fn the_wanted_number_of_calls_is_made() {
    let mut player = Player::new(Rng::new(1, 0), None, 2);
    player.load(states::fresh(SHAPE));
    for _ in 0..2 {
        assert_eq!(
            player.call(Call::Settled, &mut Slot::new()).unwrap().number,
            0
        );
    }
    let third = player.call(Call::Settled, &mut Slot::new());
    assert!(matches!(third, Err(Stop::Enough)));
}

/// What shows a fault of a get and a put in one call, with the given fuel.
fn shown(fault: InRuns, call: Call, fuel: u64) -> Option<What> {
    let fault = Some(Fault::InRuns(fault));
    let mut pair = Pair::new(states::fresh(SHAPE), fault, Side::default());
    let (_, unequal) = pair.call(&call.in_one(fuel), &mut [7, 7]);
    unequal.map(|found| found.what)
}

#[test]
fn faults_of_one_call_are_named() {
    let (cpu, frame, order) = (2, 0, 0);
    let get = Call::Get { cpu, order };
    let put = Call::Put { cpu, frame, order };
    let refused = Call::Get { cpu: 3, order };
    for (fault, call, fuel, what) in [
        (InRuns::BeginCounted, get, u64::MAX, What::Steps),
        (InRuns::BeginCounted, get, 0, What::Steps),
        (InRuns::BeginCounted, put, 1, What::Steps),
        (InRuns::BeginTakesFuel, get, 4, What::Steps),
        (InRuns::BeginTakesFuel, put, 1, What::Answer),
        (InRuns::RecordLost, get, 4, What::Record(0)),
        (InRuns::RecordLost, put, 0, What::Record(0)),
        (InRuns::RecordOfBegin, get, 4, What::Record(0)),
        (InRuns::RefusedKeepsRecord, refused, 4, What::Record(0)),
        (InRuns::RefusedRuns, refused, 4, What::Answer),
    ] {
        assert_eq!(shown(fault, call, fuel), Some(what), "{fault:?}, {call}");
    }
    for (fault, call, fuel) in [
        (InRuns::BeginCounted, refused, 4),
        (InRuns::BeginTakesFuel, get, u64::MAX),
        (InRuns::RecordLost, get, u64::MAX),
        (InRuns::RecordOfBegin, get, 0),
        (InRuns::RefusedRuns, put, u64::MAX),
    ] {
        assert_eq!(shown(fault, call, fuel), None, "{fault:?}, {call}");
    }
    for &fault in InRuns::ALL {
        let named = Fault::named(fault.name());
        assert_eq!(named, Some(Fault::InRuns(fault)));
    }
}

#[test]
fn a_run_without_fuel_makes_a_step() {
    let fault = Some(Fault::InRuns(InRuns::NoFuelNoStep));
    let mut pair = Pair::new(states::fresh(SHAPE), fault, Side::default());
    let (_, unequal) = pair.call(&Call::Run { fuel: 0 }, &mut [7, 7]);
    assert_eq!(unequal.map(|found| found.what), Some(What::Answer));
    let (_, unequal) = pair.call(&Call::Run { fuel: 1 }, &mut [7, 7]);
    assert_eq!(unequal.map(|found| found.what), None);
}

#[test]
fn a_get_and_a_put_in_one_call_are_written_with_their_numbers() {
    let (cpu, frame, order) = (1, 512, 9);
    let get = Call::Get { cpu, order }.in_one(4);
    let put = Call::Put { cpu, frame, order }.in_one(0);
    assert_eq!(get.to_string(), "get_run(cpu 1, order 9, fuel 4)");
    assert_eq!(
        put.to_string(),
        "put_run(cpu 1, frame 512, order 9, fuel 0)"
    );
    assert_eq!(get.beginning(), Some(Call::Get { cpu, order }));
    assert_eq!(put.beginning(), Some(Call::Put { cpu, frame, order }));
    assert_eq!(Call::Step.in_one(4), Call::Step);
}
