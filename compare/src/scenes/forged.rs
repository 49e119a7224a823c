//! Forged records, on tables that need not fit together.

use crate::call::Call;
use crate::player::{Played, Player, Slot};
use crate::record::{Record, stage};
use crate::scenes::sizes;
use crate::states;
use crate::translate::Shape;

/// The single step that goes on with a record of a stage.
pub fn step_of(number: u8, shape: Shape) -> Call {
    match number {
        stage::CREATE_WORDS..=stage::CREATE_HEADER => Call::CreateStep { n: shape.n as u64 },
        stage::OPEN_CHILDREN..=stage::OPEN_CPUS => Call::OpenStep,
        _ => Call::Step,
    }
}

/// Any of the calls that go on with a record.
pub fn any_step(player: &mut Player, shape: Shape) -> Call {
    let n = shape.n as u64;
    let fuel = player.rng.pick(&[0, 1, 2, 3, 40, 1_000]);
    player.rng.pick(&[
        Call::CreateStep { n },
        Call::CreateRun { n, fuel },
        Call::OpenStep,
        Call::OpenRun { fuel },
        Call::Step,
        Call::Run { fuel },
    ])
}

/// The run that goes on with a record of a stage.
fn run_of(number: u8, shape: Shape, fuel: u64) -> Call {
    match step_of(number, shape) {
        Call::CreateStep { n } => Call::CreateRun { n, fuel },
        Call::OpenStep => Call::OpenRun { fuel },
        _ => Call::Run { fuel },
    }
}

fn any_stage(player: &mut Player) -> u8 {
    player
        .rng
        .between((*stage::ALL.start()).into(), (*stage::ALL.end()).into()) as u8
}

/// Records with every field in its range, stepped a few times.
fn records(player: &mut Player, shape: Shape, count: u64) -> Played {
    for _ in 0..count {
        let number = any_stage(player);
        let mut slot = Slot::of(states::record(&mut player.rng, shape, number));
        let steps = player.rng.between(1, 4);
        for _ in 0..steps {
            player.call(step_of(number, shape), &mut slot)?;
            if slot.idle() {
                break;
            }
        }
        player.mark_running();
    }
    Ok(())
}

pub fn in_range(player: &mut Player) -> Played {
    let shape = sizes::any(&mut player.rng);
    for _ in 0..8 {
        let tables = states::loose(&mut player.rng, shape);
        player.load(tables);
        records(player, shape, 20)?;
    }
    Ok(())
}

pub fn near(player: &mut Player) -> Played {
    let shape = sizes::tall(&mut player.rng);
    let tables = states::loose(&mut player.rng, shape);
    player.load(tables);
    records(player, shape, 150)
}

/// As in range, with damaged entries.
pub fn damaged(player: &mut Player) -> Played {
    let shape = sizes::any(&mut player.rng);
    for _ in 0..8 {
        let mut tables = states::loose(&mut player.rng, shape);
        let share = player.rng.pick(&[5, 20, 60]);
        states::damage(&mut player.rng, &mut tables, shape, share);
        player.load(tables);
        records(player, shape, 20)?;
    }
    Ok(())
}

/// The stages of gets and puts at which the size of a run counts.
const SIZED: [u8; 13] = [
    stage::OWN,
    stage::TRY,
    stage::WRITE,
    stage::STEAL_COUNT,
    stage::CHILD,
    stage::CHILD,
    stage::WORD,
    stage::GIVE_BACK,
    stage::FAIL,
    stage::CLEAR,
    stage::RAISE,
    stage::TO_ENTRY,
    stage::TO_TREE,
];

/// Records of runs, on words in fragments and small counts.
pub fn short(player: &mut Player) -> Played {
    let shape = sizes::small(&mut player.rng);
    for _ in 0..10 {
        let tables = states::short(&mut player.rng, shape);
        player.load(tables);
        for _ in 0..12 {
            let rng = &mut player.rng;
            let number = rng.pick(&SIZED);
            let right = states::record(rng, shape, number);
            let mut slot = Slot::of(resized(player, right));
            player.call(Call::Step, &mut slot)?;
        }
    }
    Ok(())
}

/// A record of a run, with a small hand.
fn resized(player: &mut Player, record: Record) -> Record {
    let order = states::run_order(&mut player.rng) as u8;
    let few = states::few(&mut player.rng) as u16;
    let number = match record.order {
        9 => record.number * 512,
        _ => record.number >> order << order,
    };
    Record {
        order,
        number,
        hand: record.hand.min(few),
        ..record
    }
}

/// Runs of forged records.
pub fn runs(player: &mut Player) -> Played {
    let shape = sizes::any(&mut player.rng);
    for _ in 0..20 {
        let mut tables = if player.rng.percent(50) {
            states::loose(&mut player.rng, shape)
        } else {
            states::settled(&mut player.rng, shape)
        };
        if player.rng.percent(30) {
            states::damage(&mut player.rng, &mut tables, shape, 20);
        }
        player.load(tables);
        let number = match player.rng.below(10) {
            0 => stage::CLEAR,
            1 => stage::OPEN_CHILDREN,
            _ => any_stage(player),
        };
        let mut slot = Slot::of(states::record(&mut player.rng, shape, number));
        while !slot.idle() {
            let fuel = player.rng.pick(&[0, 1, 2, 2, 3, 7, 100, u64::MAX]);
            player.call(run_of(number, shape, fuel), &mut slot)?;
        }
    }
    Ok(())
}

/// Runs with fuel 0: of records as they are, changed, finished, and of words that are none.
pub fn without_fuel(player: &mut Player) -> Played {
    let shape = sizes::any(&mut player.rng);
    let tables = states::loose(&mut player.rng, shape);
    player.load(tables);
    for _ in 0..24 {
        let number = match player.rng.below(3) {
            0 => player
                .rng
                .between(stage::CREATE_WORDS.into(), stage::CREATE_HEADER.into())
                as u8,
            1 => player
                .rng
                .between(stage::OPEN_CHILDREN.into(), stage::OPEN_CPUS.into())
                as u8,
            _ => any_stage(player),
        };
        let right = states::record(&mut player.rng, shape, number);
        let words = match player.rng.below(4) {
            0 => right.join(),
            1 => still_a_record(player, right, shape),
            2 => [0, 0],
            _ => [states::any(&mut player.rng), states::any(&mut player.rng)],
        };
        let mut slot = Slot::with(words.to_vec());
        player.call(run_of(number, shape, 0), &mut slot)?;
        player.mark_running();
    }
    Ok(())
}

/// Records with one field changed, records of other operations, and words that are no record.
pub fn changed(player: &mut Player) -> Played {
    let shape = sizes::any(&mut player.rng);
    let mut tables = states::loose(&mut player.rng, shape);
    if player.rng.percent(50) {
        states::damage(&mut player.rng, &mut tables, shape, 20);
    }
    player.load(tables);
    for _ in 0..80 {
        let number = any_stage(player);
        let right = states::record(&mut player.rng, shape, number);
        let words = match player.rng.below(9) {
            0 => right.join(),
            1 => [states::any(&mut player.rng), states::any(&mut player.rng)],
            2 => flipped(player, right.join()),
            3 if player.rng.percent(30) => [0, 0],
            3 => change(player, right, shape).join(),
            4 => other_order(player, right).join(),
            _ => still_a_record(player, right, shape),
        };
        let mut slot = Slot::with(words.to_vec());
        let call = if player.rng.percent(70) {
            step_of(number, shape)
        } else {
            any_step(player, shape)
        };
        player.call(call, &mut slot)?;
        player.mark_running();
    }
    Ok(())
}

fn flipped(player: &mut Player, mut words: [u64; 2]) -> [u64; 2] {
    let bit = 1 << player.rng.below(64);
    words[player.rng.below(2) as usize] ^= bit;
    words
}

/// An order that blocks have not, or that the stage may not have.
fn other_order(player: &mut Player, record: Record) -> Record {
    let above = player.rng.between(10, 255) as u8;
    let order = player.rng.pick(&[3, 7, 8, 9, 9, 10, above]);
    Record { order, ..record }
}

/// One field changed so that the words are a record still.
fn still_a_record(player: &mut Player, record: Record, shape: Shape) -> [u64; 2] {
    for _ in 0..50 {
        let words = change(player, record, shape).join();
        if words != record.join() && Record::split(words).is_some() {
            return words;
        }
    }
    record.join()
}

/// One field changed, most often to just past its range.
fn change(player: &mut Player, record: Record, shape: Shape) -> Record {
    let rng = &mut player.rng;
    let (trees, cpus) = (shape.trees() as u64, shape.cpus as u64);
    let width = shape.width(record.tree.into()) as u64;
    let capacity = states::capacity(shape, record.tree.into()) as u64;
    let field = rng.below(17);
    let inside = 1 << rng.below(record.order.clamp(1, 6).into());
    let mut near = |edge: u64, most: u64| match rng.below(4) {
        0 | 1 => edge.min(most),
        2 => (edge + rng.below(3)).min(most),
        _ => rng.below(most + 1),
    };
    let mut changed = record;
    match field {
        _ if record.stage == stage::WORD && field < 5 => changed.word = near(8, 9) as u8,
        0 => changed.cpu = near(cpus, 255) as u8,
        1 => changed.order = near(6, 12) as u8,
        2 => changed.kind = near(7, 255) as u8,
        3 => changed.start = near(width, 255) as u8,
        4 => changed.child = near(width, 255) as u8,
        5 => changed.word = near(8, 9) as u8,
        6 => changed.tree = near(trees, 65_535) as u16,
        7 => changed.base = near(trees, 65_535) as u16,
        8 => changed.hand = near(capacity + 1, 65_535) as u16,
        9 => changed.from = near(cpus, 255) as u8,
        10 => changed.stage = near(30, 255) as u8,
        11 => changed.base = record.tree,
        12 => changed.from = record.cpu,
        13 => changed.number = near(edge(record, shape), u32::MAX.into()),
        14 | 15 => changed.number ^= inside,
        _ => changed.number = near(1 << 32, u64::MAX - 1),
    }
    changed
}

/// The first number past a record's range.
fn edge(record: Record, shape: Shape) -> u64 {
    let n = shape.n as u64;
    match (record.stage, record.order) {
        (stage::CREATE_WORDS, _) => 8 * n,
        (stage::CREATE_CHILDREN | stage::OPEN_CHILDREN, _) | (_, 9) => n,
        _ => 512 * n,
    }
}
