//! Wrong lengths and headers, one or several at once, at every call.

use reference::layout::Header;

use crate::call::Call;
use crate::library::Packed;
use crate::player::{Played, Player, Slot};
use crate::scenes::sizes;
use crate::states;
use crate::translate::Shape;

/// Any call, with numbers that are mostly right.
fn any_call(player: &mut Player, shape: Shape) -> Call {
    let rng = &mut player.rng;
    let n = if rng.percent(85) {
        shape.n as u64
    } else {
        rng.pick(&[0, 1, 65_536, 65_537, u64::MAX])
    };
    let fuel = rng.pick(&[0, 1, 2, 50]);
    let cpu = rng.below(shape.cpus as u64 + 1);
    let order = rng.pick(&[0, 9, 9, 1, 6, 7]);
    let frame = rng.below(512 * shape.n as u64 + 2);
    rng.pick(&[
        Call::Create { n },
        Call::CreateStep { n },
        Call::CreateRun { n, fuel },
        Call::Open,
        Call::OpenStep,
        Call::OpenRun { fuel },
        Call::Close,
        Call::Settled,
        Call::Get { cpu, order },
        Call::Put { cpu, frame, order },
        Call::Step,
        Call::Step,
        Call::Run { fuel },
        Call::GetRun { cpu, order, fuel },
        Call::PutRun {
            cpu,
            frame,
            order,
            fuel,
        },
    ])
}

/// A record that fits the call, sometimes none.
fn any_slot(player: &mut Player, shape: Shape, call: &Call) -> Slot {
    if player.rng.percent(10) {
        return Slot::new();
    }
    let (first, last) = match call {
        Call::CreateStep { .. } | Call::CreateRun { .. } => (22, 26),
        Call::OpenStep | Call::OpenRun { .. } => (27, 29),
        _ => (1, 21),
    };
    let number = player.rng.between(first, last) as u8;
    Slot::of(states::record(&mut player.rng, shape, number))
}

/// A length that is not the right one.
fn resize<E: Copy>(player: &mut Player, table: &mut Vec<E>, entry: E) {
    let length = match player.rng.below(4) {
        0 => 0,
        1 => table.len().saturating_sub(1),
        2 => 2 * table.len(),
        _ => table.len() + 1,
    };
    table.resize(length, entry);
}

/// A header with one field wrong, or closed.
fn header(player: &mut Player, n: usize) -> u64 {
    let good = Header::running(n);
    let rng = &mut player.rng;
    let wrong = match rng.below(8) {
        0 => Header {
            identifier: good.identifier ^ 1 << rng.below(16),
            ..good
        },
        1 => Header {
            format: rng.pick(&[0, 2, 15]),
            ..good
        },
        2 => Header {
            marker: rng.pick(&[0, 3]),
            ..good
        },
        3 => Header {
            n: rng.pick(&[0, 65_537, (1 << 17) - 1]),
            ..good
        },
        4 => Header {
            zero: 1 << rng.below(25),
            ..good
        },
        5 => Header {
            zero: 1,
            ..Header::clean(n)
        },
        6 => Header::clean(n),
        _ => Header {
            n: rng.between(1, 65_536) as u32,
            ..good
        },
    };
    if player.rng.percent(5) {
        states::any(&mut player.rng)
    } else {
        wrong.join()
    }
}

/// One defect of the tables or the record slice.
fn spoil(player: &mut Player, tables: &mut Packed, slot: &mut Slot, shape: Shape) {
    match player.rng.below(11) {
        0 | 1 => tables.header = vec![header(player, shape.n)],
        2 => {
            let length = player.rng.pick(&[0, 2, 3]);
            let entry = header(player, shape.n);
            tables.header.resize(length, entry);
        }
        3 => resize(player, &mut tables.words, 0),
        4 => resize(player, &mut tables.children, 512),
        5 => resize(player, &mut tables.trees, 0),
        6 => {
            let length = player.rng.pick(&[0, 0, 65, 128]);
            tables.cpus.resize(length, 0);
        }
        7 => slot
            .words
            .resize([0, 1, 3, 4][player.rng.below(4) as usize], 7),
        8 => states::damage(&mut player.rng, tables, shape, 30),
        9 => slot.words[0] ^= 1 << player.rng.below(64),
        _ => tables.header = vec![Header::clean(shape.n).join()],
    }
}

fn spoiled(player: &mut Player, count: u64) -> Played {
    let shape = sizes::small(&mut player.rng);
    let good = states::settled(&mut player.rng, shape);
    for _ in 0..80 {
        let call = any_call(player, shape);
        let mut slot = any_slot(player, shape, &call);
        let mut tables = good.clone();
        for _ in 0..count {
            if slot.words.is_empty() {
                break;
            }
            spoil(player, &mut tables, &mut slot, shape);
        }
        player.load(tables);
        player.call(call, &mut slot)?;
    }
    Ok(())
}

pub fn one(player: &mut Player) -> Played {
    spoiled(player, 1)
}

pub fn several(player: &mut Player) -> Played {
    let count = player.rng.between(2, 4);
    spoiled(player, count)
}
