//! Interleavings that chance seldom makes.

use crate::call::{Call, Outcome};
use crate::player::{Played, Player, Slot};
use crate::record::{Record, kind, stage};
use crate::states;
use crate::translate::Shape;

/// One after the other, on fresh tables each.
pub fn all(player: &mut Player) -> Played {
    for _ in 0..4 {
        stolen_hand(player)?;
        stolen_search(player)?;
        damaged_hand(player)?;
        full_words(player)?;
        put_between(player)?;
        huge_between(player)?;
        cut_inside(player)?;
        one_run_for_two(player)?;
        by_halves(player)?;
    }
    Ok(())
}

/// A zone of one tree and some CPUs; CPU 0 holds the tree with a count.
fn held(player: &mut Player, count: usize) -> Shape {
    let shape = Shape {
        n: player.rng.between(2, 32) as usize,
        cpus: player.rng.between(2, 6) as usize,
    };
    let mut tables = states::fresh(shape);
    let capacity = states::capacity(shape, 0);
    tables.trees[0] = 0x8000 | (capacity - count) as u16;
    tables.cpus[0] = states::cpu_entry(0, 0, count);
    player.load(tables);
    shape
}

/// A record of CPU 1 that steals from CPU 0 in its next step.
fn thief(order: u8) -> Slot {
    Slot::of(Record {
        stage: stage::STEAL,
        cpu: 1,
        order,
        ..Record::FINISHED
    })
}

/// A get of CPU 0 that has made its steps up to a stage.
fn got_to(player: &mut Player, order: u8, wanted: u8) -> Played<Slot> {
    let mut slot = Slot::new();
    let order = order.into();
    player.call(Call::Get { cpu: 0, order }, &mut slot)?;
    while !slot.idle() && !slot.stands_at(wanted) {
        player.call(Call::Step, &mut slot)?;
    }
    Ok(slot)
}

/// CPU 0's get stands at a stage when CPU 1 steals its entry; then CPU 0 makes that step.
fn stolen_at(player: &mut Player, order: u8, wanted: u8, case: &str) -> Played {
    let mut slot = got_to(player, order, wanted)?;
    let mut other = thief(order);
    player.call(Call::Step, &mut other)?;
    let stolen = slot.stands_at(wanted) && other.stands_at(stage::STEAL_COUNT);
    if player.rng.percent(50) {
        player.call(Call::Step, &mut other)?;
    }
    if !slot.idle() {
        player.call(Call::Step, &mut slot)?;
    }
    if stolen && player.pair.library.cpus[0] == 0 {
        player.cover.note(case);
    }
    for slot in [&mut slot, &mut other] {
        while !slot.idle() {
            player.call(Call::Step, slot)?;
        }
    }
    Ok(())
}

/// CPU 0 has the tree's count in hand; the hand is returned.
fn stolen_hand(player: &mut Player) -> Played {
    held(player, 0);
    let order = states::order(&mut player.rng) as u8;
    stolen_at(
        player,
        order,
        stage::FILL_ENTRY,
        "after a steal: hand returned",
    )
}

/// CPU 0 has searched; what would go to its entry does not.
fn stolen_search(player: &mut Player) -> Played {
    held(player, 1_000);
    let order = states::order(&mut player.rng) as u8;
    let (wanted, case) = player.rng.pick(&[
        (stage::LAST, "after a steal: start child not kept"),
        (stage::FAIL, "after a steal: claim returned to the tree"),
        (stage::RELEASE, "after a steal: release gone"),
    ]);
    if wanted != stage::LAST {
        player.pair.edit(|tables| tables.children.fill(0));
    }
    stolen_at(player, order, wanted, case)
}

/// CPU 0 takes the tree's count in hand; its entry is damaged, or the tree grows, meanwhile.
fn damaged_hand(player: &mut Player) -> Played {
    let shape = held(player, 0);
    let mut slot = got_to(player, 9, stage::FILL_ENTRY)?;
    if slot.stands_at(stage::FILL_ENTRY) {
        player.cover.note("damage: under a hand");
    }
    let capacity = states::capacity(shape, 0);
    match player.rng.below(3) {
        0 => player.pair.edit(|tables| {
            tables.cpus[0] = states::bad_cpu(&mut player.rng, shape);
        }),
        1 => player.pair.edit(|tables| {
            tables.cpus[0] = states::cpu_entry(0, 0, capacity.min(512));
        }),
        _ => player.pair.edit(|tables| {
            tables.cpus[0] = 0;
            tables.trees[0] = 0x8001;
        }),
    }
    player.finish(&mut slot)?;
    Ok(())
}

/// A get of order 9 comes to a child whose count was lowered and whose bits are not set yet.
fn huge_between(player: &mut Player) -> Played {
    held(player, 1_000);
    let order = states::run_order(&mut player.rng) as u8;
    let mut base = got_to(player, order, stage::WORD)?;
    let mut huge = Slot::of(Record {
        stage: stage::CHILD,
        cpu: 1,
        order: 9,
        kind: kind::OWN,
        ..Record::FINISHED
    });
    player.call(Call::Step, &mut huge)?;
    if base.stands_at(stage::WORD) && huge.stands_at(stage::CHILD) {
        player
            .cover
            .note("between: huge get passes a claimed child");
    }
    player.finish(&mut base)?;
    player.finish(&mut huge)?;
    Ok(())
}

/// A get or a put of a run, cut at each of its stores to the lower level, and recovered.
fn cut_inside(player: &mut Player) -> Played {
    held(player, 1_000);
    let order = states::run_order(&mut player.rng);
    let (wanted, free, case) = player.rng.pick(&[
        (stage::WORD, 512, "cut: after a get's lowered count"),
        (
            stage::LAST,
            512 - (1 << order),
            "cut: after a get's set bit",
        ),
        (stage::RAISE, 512, "cut: after a put's clearing store"),
    ]);
    let mut slot = got_to(player, order as u8, wanted)?;
    if wanted == stage::RAISE {
        let (cpu, frame) = (1, 0);
        player.call(Call::Put { cpu, frame, order }, &mut slot)?;
        player.call(Call::Step, &mut slot)?;
    }
    let stands = slot.stands_at(wanted);
    player
        .pair
        .edit(|tables| states::cut(&mut player.rng, tables));
    let mut opening = Slot::new();
    player.call(Call::Open, &mut opening)?;
    while !opening.idle() {
        player.call(Call::OpenStep, &mut opening)?;
    }
    if stands && player.pair.library.children[0] == free {
        player.cover.note(case);
    }
    player.call(Call::Settled, &mut Slot::new())?;
    Ok(())
}

/// A child whose count was lowered is found full by its eight words.
fn full_words(player: &mut Player) -> Played {
    let shape = held(player, 1_000);
    let last = player.rng.percent(50);
    let huge = if last { shape.n - 1 } else { 0 };
    let order = states::run_order(&mut player.rng);
    player.pair.edit(|tables| {
        tables.cpus[0] = states::cpu_entry(0, huge, 600);
        tables.words[8 * huge..][..8].fill(u64::MAX);
        tables.children[huge] = 1 << order;
    });
    let mut slot = got_to(player, order as u8, stage::GIVE_BACK)?;
    match player.rng.below(6) {
        0 => player.pair.edit(|tables| tables.children[huge] = 0x8000),
        1 => player.pair.edit(|tables| tables.children[huge] = 512),
        2 => player.pair.edit(|tables| tables.children[huge] = 0x8001),
        _ => {}
    }
    player.finish(&mut slot)?;
    Ok(())
}

/// A put's steps fall between those of a get of the same CPU's tree.
fn put_between(player: &mut Player) -> Played {
    held(player, 1_000);
    let order = states::run_order(&mut player.rng);
    let mut first = Slot::new();
    player.call(Call::Get { cpu: 0, order }, &mut first)?;
    let frame = player.finish(&mut first)?.frame;
    let mut put = Slot::new();
    player.call(
        Call::Put {
            cpu: 1,
            frame,
            order,
        },
        &mut put,
    )?;
    let mut get = Slot::new();
    player.call(Call::Get { cpu: 0, order: 9 }, &mut get)?;
    while !put.idle() || !get.idle() {
        let slot = if get.idle() || (!put.idle() && player.rng.percent(30)) {
            &mut put
        } else {
            &mut get
        };
        player.call(Call::Step, slot)?;
    }
    Ok(())
}

/// Two gets claim on a child that has room for both and one fitting run.
fn one_run_for_two(player: &mut Player) -> Played {
    held(player, 200);
    let order = player.rng.between(1, 6);
    let run = u64::MAX >> (64 - (1 << order));
    player.pair.edit(|tables| {
        tables.words[..8].fill(0x5555_5555_5555_5555);
        tables.words[player.rng.below(8) as usize] &= !run;
        let free = states::zeros(&tables.words, 0) as u16;
        tables.children[0] = free;
        tables.trees[0] -= 512 - free;
    });
    let mut first = got_to(player, order as u8, stage::WORD)?;
    let mut second = got_to(player, order as u8, stage::WORD)?;
    player.finish(&mut first)?;
    while !second.idle() && !second.stands_at(stage::GIVE_BACK) {
        player.call(Call::Step, &mut second)?;
    }
    if second.stands_at(stage::GIVE_BACK) {
        player.cover.note("between: one run for two gets");
    }
    while !second.idle() {
        player.call(Call::Step, &mut second)?;
    }
    Ok(())
}

/// Begins an operation and runs it to its end, in one call or in two.
fn ended(player: &mut Player, call: Call) -> Played<Outcome> {
    let mut slot = Slot::new();
    if player.rng.percent(50) {
        return player.call(call.in_one(u64::MAX), &mut slot);
    }
    let begun = player.call(call, &mut slot)?;
    if begun.number != 1 {
        return Ok(begun);
    }
    player.call(Call::Run { fuel: u64::MAX }, &mut slot)
}

/// A run goes back by halves; the whole is refused in between.
fn by_halves(player: &mut Player) -> Played {
    held(player, 1_000);
    let cpu = player.rng.below(2);
    let order = player.rng.between(1, 6);
    let frame = ended(player, Call::Get { cpu: 0, order })?.frame;
    let half = 1 << (order - 1);
    let mut numbers = [0; 3];
    for (number, (frame, order)) in numbers.iter_mut().zip([
        (frame + half, order - 1),
        (frame, order),
        (frame, order - 1),
    ]) {
        *number = ended(player, Call::Put { cpu, frame, order })?.number;
    }
    if numbers == [0, 6, 0] {
        player.cover.note("parts: put by halves");
    }
    Ok(())
}

/// Gets and puts alone, of whole blocks, leave a child whose count is enough for a run while none fits.
pub fn fragmented(player: &mut Player) -> Played {
    let shape = Shape {
        n: player.rng.between(1, 2) as usize,
        cpus: player.rng.between(1, 3) as usize,
    };
    player.load(states::fresh(shape));
    let cpu = player.rng.below(shape.cpus as u64);
    let order = player.rng.between(1, 6);
    let halves = first_child(player, cpu, order - 1)?;
    put_one_of_pairs(player, shape, &halves, order - 1)?;
    let mut slot = Slot::new();
    player.call(Call::Get { cpu, order }, &mut slot)?;
    while !slot.idle() {
        let gives_back = slot.stands_at(stage::GIVE_BACK);
        let outcome = player.call(Call::Step, &mut slot)?;
        if gives_back && outcome.number == 1 {
            let case = format!("fragmented: order {order} gives its count back");
            player.cover.note(&case);
        }
    }
    player.call(Call::Settled, &mut Slot::new()).map(|_| ())
}

/// Takes the first child: most words by runs of 64 frames, the last one or two by blocks of an order, whose frames it gives.
fn first_child(player: &mut Player, cpu: u64, order: u64) -> Played<Vec<u64>> {
    let words = if order == 5 { 2 } else { 1 };
    for _ in words..8 {
        ended(player, Call::Get { cpu, order: 6 })?;
    }
    let blocks = (64 * words) >> order;
    (0..blocks)
        .map(|_| ended(player, Call::Get { cpu, order }).map(|got| got.frame))
        .collect()
}

/// Puts one block of each of two or more pairs.
fn put_one_of_pairs(player: &mut Player, shape: Shape, blocks: &[u64], order: u64) -> Played {
    let count = player.rng.between(2, blocks.len() as u64 / 2);
    for pair in blocks.chunks(2).take(count as usize) {
        let frame = player.rng.pick(pair);
        let cpu = player.rng.below(shape.cpus as u64);
        ended(player, Call::Put { cpu, frame, order })?;
    }
    Ok(())
}
