//! The library stores nothing beside the slices that it is lent.

use compare::call::{Call, Outcome};
use compare::library::Packed;
use compare::record::stage;
use compare::states;
use compare::translate::Shape;
use lovarntek::calls::Tables;
use reference::rng::Rng;

/// Entries before and after each slice.
const GUARD: usize = 40;

/// A slice in the middle of a table of ones.
fn guarded<E: Copy>(entries: &[E], ones: E) -> Vec<E> {
    let guard = [ones; GUARD];
    [&guard[..], entries, &guard[..]].concat()
}

fn middle<E>(table: &mut [E]) -> &mut [E] {
    let length = table.len();
    &mut table[GUARD..length - GUARD]
}

/// Makes one step, or a get or put in one call, on slices of guarded tables, as on the tables themselves.
fn step(packed: &mut Packed, call: Call, record: &mut [u64]) {
    let mut header = guarded(&packed.header, u64::MAX);
    let mut words = guarded(&packed.words, u64::MAX);
    let mut children = guarded(&packed.children, u16::MAX);
    let mut trees = guarded(&packed.trees, u16::MAX);
    let mut cpus = guarded(&packed.cpus, u64::MAX);
    let mut lent = guarded(record, u64::MAX);
    let mut tables = Tables {
        header: middle(&mut header),
        words: middle(&mut words),
        children: middle(&mut children),
        trees: middle(&mut trees),
        cpus: middle(&mut cpus),
    };
    let lend = middle(&mut lent);
    let answered = match call {
        Call::CreateStep { n } => tables.create_step(lend, n).into(),
        Call::OpenStep => tables.open_step(lend).into(),
        Call::GetRun { cpu, order, fuel } => tables.get_run(lend, cpu, order, fuel).into(),
        Call::PutRun {
            cpu,
            frame,
            order,
            fuel,
        } => tables.put_run(lend, cpu, frame, order, fuel).into(),
        _ => tables.step(lend).into(),
    };
    let outcome: Outcome = packed.call(&call, record);
    assert_eq!(outcome, answered);
    assert_eq!(header, guarded(&packed.header, u64::MAX));
    assert_eq!(words, guarded(&packed.words, u64::MAX));
    assert_eq!(children, guarded(&packed.children, u16::MAX));
    assert_eq!(trees, guarded(&packed.trees, u16::MAX));
    assert_eq!(cpus, guarded(&packed.cpus, u64::MAX));
    assert_eq!(lent, guarded(record, u64::MAX));
}

#[test]
fn nothing_is_stored_beside_the_slices() {
    let mut rng = Rng::new(1, 0);
    for _ in 0..20_000 {
        let shape = Shape {
            n: rng.between(1, 70) as usize,
            cpus: rng.between(1, 8) as usize,
        };
        let mut packed = states::loose(&mut rng, shape);
        states::damage(&mut rng, &mut packed, shape, 5);
        let number = rng.between(1, 29) as u8;
        let mut record = states::record(&mut rng, shape, number).join().to_vec();
        match rng.below(10) {
            0 => record[1] ^= 1 << rng.below(64),
            1 => record.truncate(rng.below(2) as usize),
            2 => packed.children.truncate(rng.below(70) as usize),
            _ => {}
        }
        let (cpu, order) = (rng.below(9), rng.below(10));
        let frame = rng.below(512 * shape.n as u64) >> order << order;
        let fuel = states::fuel(&mut rng);
        let call = match number {
            stage::CLEAR..=stage::TO_TREE if rng.percent(50) => {
                Call::Put { cpu, frame, order }.in_one(fuel)
            }
            stage::OWN..=stage::NO_ROOM if rng.percent(20) => Call::Get { cpu, order }.in_one(fuel),
            stage::CREATE_WORDS..=stage::CREATE_HEADER => Call::CreateStep { n: shape.n as u64 },
            stage::OPEN_CHILDREN..=stage::OPEN_CPUS => Call::OpenStep,
            _ => Call::Step,
        };
        step(&mut packed, call, &mut record);
    }
}
