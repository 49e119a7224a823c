//! Zones, and every call, for tests.

use lovarntek::calls::Answered;
use lovarntek::{Order, Refusal, Tables, Zone};
use std::collections::BTreeSet;

/// A fresh zone.
pub fn created(n: u64, cpus: u64) -> Zone {
    Zone::create(n, cpus).unwrap()
}

/// A cut: trees and CPUs hold junk, the other tables are kept.
pub fn cut(zone: &mut Zone) {
    let tables = zone.tables();
    tables.trees.fill(0xABCD);
    tables.cpus.fill(0xDEAD_BEEF_0BAD_CAFE);
}

/// Takes base frames until there is no room, for one CPU.
pub fn drain(zone: &mut Zone, cpu: u64) -> BTreeSet<u64> {
    let mut taken = BTreeSet::new();
    loop {
        match zone.get(cpu, Order::Base) {
            Ok(frame) => assert!(taken.insert(frame), "frame {frame} twice"),
            Err(refusal) => {
                assert_eq!(refusal, Refusal::NoRoom);
                return taken;
            }
        }
    }
}

/// A call of any kind, with a record and numbers that are right for a zone of 33 huge frames and 2 CPUs.
pub struct Call {
    pub name: &'static str,
    pub make: fn(&mut Tables, &mut [u64]) -> Answered,
    /// What a closed zone answers, if that is decided before 8.
    pub closed: Option<u64>,
    /// Whether the header is read.
    pub reads_header: bool,
    /// Whether a record is lent.
    pub has_record: bool,
}

const fn call(name: &'static str, make: fn(&mut Tables, &mut [u64]) -> Answered) -> Call {
    Call {
        name,
        make,
        closed: Some(10),
        reads_header: true,
        has_record: true,
    }
}

const fn of_create(call: Call) -> Call {
    Call {
        closed: None,
        reads_header: false,
        ..call
    }
}

/// Every call over tables.
pub const CALLS: [Call; 14] = [
    of_create(call("create", |t, r| t.create(r, 33))),
    of_create(call("create_step", |t, r| t.create_step(r, 33))),
    of_create(call("create_run", |t, r| ran(t.create_run(r, 33, 9)))),
    Call {
        closed: None,
        ..call("open", |t, r| t.open(r))
    },
    call("open_step", |t, r| t.open_step(r)),
    call("open_run", |t, r| ran(t.open_run(r, 9))),
    Call {
        has_record: false,
        ..call("close", |t, _| t.close())
    },
    Call {
        has_record: false,
        ..call("settled", |t, _| t.settled())
    },
    call("get", |t, r| t.get(r, 1, 0)),
    call("put", |t, r| t.put(r, 1, 512, 9)),
    call("step", |t, r| t.step(r)),
    call("run", |t, r| ran(t.run(r, 9))),
    call("get_run", |t, r| ran(t.get_run(r, 1, 0, 9))),
    call("put_run", |t, r| ran(t.put_run(r, 1, 512, 9, 9))),
];

fn ran(ran: lovarntek::calls::Ran) -> Answered {
    Answered {
        number: ran.number,
        frame: ran.frame,
    }
}

/// Makes a call that must answer `number`, and neither store in the tables nor write another record than `after`.
pub fn refused(zone: &mut Zone, call: &Call, record: &mut [u64], number: u64, after: &[u64]) {
    let before = zone.clone();
    let answered = (call.make)(&mut zone.tables(), record);
    assert_eq!(answered, Answered { number, frame: 0 }, "{}", call.name);
    assert_eq!(*zone, before, "{}", call.name);
    assert_eq!(record, after, "{}", call.name);
}
