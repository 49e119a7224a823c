//! Schedules of gets, puts, cuts, opens and closes, step by step.

use crate::call::Call;
use crate::player::{Played, Player, Slot};
use crate::record::stage;
use crate::scenes::sizes;
use crate::states;
use crate::translate::Shape;

/// What stands in the tables.
#[derive(Clone, Debug)]
enum Phase {
    Running,
    /// No operation is begun until all have ended and the zone is closed.
    Draining,
    /// Closed, or cut.
    Down,
    Opening(Slot),
    Creating(Slot),
}

/// One schedule by all CPUs of a zone.
#[derive(Clone, Debug)]
pub struct Schedule {
    shape: Shape,
    phase: Phase,
    /// The latest record of each CPU; in odd schedules there may be two of each.
    slots: Vec<Slot>,
    /// What gets have answered and no put has been begun for.
    held: Vec<(u64, u64)>,
    /// Of a hundred beginnings, how many are gets.
    gets: u64,
    /// The slot that stepped last, and how often it goes on.
    slot: usize,
    burst: u64,
    /// Whether runs and odd calls are made between single steps.
    odd: bool,
    /// Whether bits are flipped now and then.
    flips: bool,
}

impl Schedule {
    pub fn new(player: &mut Player, odd: bool) -> Self {
        let shape = player.shape();
        let each = if odd && player.rng.percent(15) { 2 } else { 1 };
        Schedule {
            shape,
            phase: Phase::Running,
            slots: vec![Slot::new(); shape.cpus * each],
            held: Vec::new(),
            gets: player.rng.pick(&[40, 60, 90]),
            slot: 0,
            burst: player.rng.pick(&[0, 50, 90]),
            odd,
            flips: odd && player.rng.percent(25),
        }
    }

    /// Begins on tables that hold nothing of a zone.
    fn on_nothing(mut self) -> Self {
        self.phase = Phase::Down;
        self
    }

    /// Makes one call, sometimes after a cut.
    pub fn tick(&mut self, player: &mut Player) -> Played {
        match self.phase {
            Phase::Down => self.down(player),
            Phase::Opening(_) | Phase::Creating(_) => self.later(player),
            Phase::Running | Phase::Draining => self.running(player),
        }
    }

    fn running(&mut self, player: &mut Player) -> Played {
        let n = self.shape.n as u64;
        if player.rng.below(600 + 4 * n) == 0 {
            self.cut(player);
            player.cover.note("cut: during gets and puts");
            return Ok(());
        }
        if player.rng.below(150 + n) == 0 {
            self.phase = Phase::Draining;
        }
        if self.odd && player.rng.below(100) == 0 {
            return self.odd_call(player);
        }
        let idle = self.slots.iter().all(Slot::idle);
        if idle && matches!(self.phase, Phase::Draining) {
            return self.close(player);
        }
        self.operate(player)
    }

    /// A close while operations may be under way, a settled, a refused step, or a flipped bit.
    fn odd_call(&mut self, player: &mut Player) -> Played {
        let mut slot = Slot::new();
        match player.rng.below(5) {
            0 => self.close(player),
            1 if self.flips => {
                player
                    .pair
                    .edit(|tables| states::flip(&mut player.rng, tables));
                Ok(())
            }
            2 => player.call(Call::Step, &mut slot).map(|_| ()),
            _ => player.call(Call::Settled, &mut slot).map(|_| ()),
        }
    }

    fn close(&mut self, player: &mut Player) -> Played {
        let outcome = player.call(Call::Close, &mut Slot::new())?;
        self.phase = match outcome.number {
            0 => Phase::Down,
            _ => Phase::Running,
        };
        if outcome.number == 0 && player.rng.percent(50) {
            player
                .pair
                .edit(|tables| states::cut(&mut player.rng, tables));
        }
        Ok(())
    }

    /// Trees, CPUs and records are lost.
    fn cut(&mut self, player: &mut Player) {
        player
            .pair
            .edit(|tables| states::cut(&mut player.rng, tables));
        self.slots.fill(Slot::new());
        self.phase = Phase::Down;
    }

    /// The next step of a CPU's operation, or a new one.
    fn operate(&mut self, player: &mut Player) -> Played {
        if !player.rng.percent(self.burst) {
            self.slot = player.rng.below(self.slots.len() as u64) as usize;
        }
        if !self.slots[self.slot].idle() {
            return self.step(player);
        }
        if matches!(self.phase, Phase::Draining) {
            let busy = self.slots.iter().position(|slot| !slot.idle());
            self.slot = busy.unwrap_or(self.slot);
            return self.step(player);
        }
        self.begin(player)
    }

    fn step(&mut self, player: &mut Player) -> Played {
        let slot = &mut self.slots[self.slot];
        let gets = slot
            .record()
            .is_some_and(|record| record.stage < stage::CLEAR);
        let order = slot.record().map_or(0, |record| record.order);
        let call = if self.odd && player.rng.percent(3) {
            let fuel = player.rng.pick(&[0, 1, 2, 3, 10, 1_000]);
            Call::Run { fuel }
        } else {
            Call::Step
        };
        let outcome = player.call(call, slot)?;
        if outcome.number == 0 && gets {
            self.held.push((outcome.frame, order.into()));
        }
        Ok(())
    }

    fn begin(&mut self, player: &mut Player) -> Played {
        let cpu = (self.slot % self.shape.cpus) as u64;
        if player.rng.below(400) == 0 {
            self.gets = player.rng.pick(&[20, 50, 80, 100]);
        }
        let call = if self.held.is_empty() || player.rng.percent(self.gets) {
            let order = states::order(&mut player.rng);
            Call::Get { cpu, order }
        } else {
            let (frame, order) = self.given_back(player);
            Call::Put { cpu, frame, order }
        };
        let call = if self.odd && player.rng.percent(10) {
            call.in_one(states::fuel(&mut player.rng))
        } else {
            call
        };
        let slot = &mut self.slots[self.slot];
        let outcome = player.call(call, slot)?;
        if let (Call::GetRun { order, .. }, 0) = (call, outcome.number) {
            self.held.push((outcome.frame, order));
        }
        Ok(())
    }

    /// A block to put: one that a get answered, now and then any.
    fn given_back(&mut self, player: &mut Player) -> (u64, u64) {
        if self.odd && player.rng.percent(3) {
            let frame = player.rng.below(512 * self.shape.n as u64);
            let order = states::order(&mut player.rng);
            return (frame >> order << order, order);
        }
        let index = player.rng.below(self.held.len() as u64) as usize;
        let (frame, order) = self.held.swap_remove(index);
        if self.odd && matches!(order, 1..=6) && player.rng.percent(15) {
            let half = order - 1;
            self.held.push((frame + (1 << half), half));
            return (frame, half);
        }
        (frame, order)
    }

    /// A closed or cut zone: opened, or created if it has no header.
    fn down(&mut self, player: &mut Player) -> Played {
        let mut slot = Slot::new();
        if self.odd && player.rng.percent(20) {
            return self.refused(player);
        }
        if player.pair.library.header == [0] {
            let n = self.shape.n as u64;
            player.call(Call::Create { n }, &mut slot)?;
            self.held.clear();
            self.phase = Phase::Creating(slot);
            return Ok(());
        }
        let opened = player.call(Call::Open, &mut slot)?;
        if opened.number == 1 {
            self.phase = Phase::Opening(slot);
        } else {
            // Damaged by a flipped bit: begun again.
            player.pair.edit(|tables| tables.header = vec![0]);
        }
        Ok(())
    }

    /// A call that a zone which is not open refuses, most often.
    fn refused(&mut self, player: &mut Player) -> Played {
        let mut slot = Slot::new();
        let call = player.rng.pick(&[
            Call::Get { cpu: 0, order: 0 },
            Call::Put {
                cpu: 0,
                frame: 0,
                order: 0,
            },
            Call::Step,
            Call::OpenStep,
            Call::Settled,
            Call::Run { fuel: 1 },
            Call::GetRun {
                cpu: 0,
                order: 0,
                fuel: 9,
            },
            Call::PutRun {
                cpu: 0,
                frame: 0,
                order: 0,
                fuel: 9,
            },
        ]);
        player.call(call, &mut slot).map(|_| ())
    }

    /// A later step of an open or a create, or a cut inside it.
    fn later(&mut self, player: &mut Player) -> Played {
        let opens = matches!(self.phase, Phase::Opening(_));
        let rarely = 10 * self.shape.n as u64 + 20;
        if player.rng.below(rarely) == 0 {
            self.cut(player);
            player.cover.note(if opens {
                "cut: inside an open"
            } else {
                "cut: inside a create"
            });
            return Ok(());
        }
        let n = self.shape.n as u64;
        let (Phase::Opening(slot) | Phase::Creating(slot)) = &mut self.phase else {
            return Ok(());
        };
        let fuel = player.rng.pick(&[0, 1, 2, 5, 50, 100_000]);
        let call = match (opens, self.odd && player.rng.percent(5)) {
            (true, false) => Call::OpenStep,
            (true, true) => Call::OpenRun { fuel },
            (false, false) => Call::CreateStep { n },
            (false, true) => Call::CreateRun { n, fuel },
        };
        match player.call(call, slot)?.number {
            0 => self.phase = Phase::Running,
            1 => {}
            _ => self.phase = Phase::Down,
        }
        Ok(())
    }
}

fn ticks(player: &mut Player, mut schedule: Schedule, count: u64) -> Played {
    for _ in 0..count {
        schedule.tick(player)?;
    }
    Ok(())
}

/// Any size and any fill, or a zone from nothing.
pub fn mixed(player: &mut Player) -> Played {
    let shape = sizes::any(&mut player.rng);
    let nothing = shape.n <= 4 && player.rng.percent(20);
    let mut tables = states::settled(&mut player.rng, shape);
    if nothing {
        states::damage(&mut player.rng, &mut tables, shape, 50);
        tables.header = vec![0];
    }
    player.load(tables);
    let schedule = Schedule::new(player, true);
    let schedule = if nothing {
        schedule.on_nothing()
    } else {
        schedule
    };
    ticks(player, schedule, 1_000)
}

/// One tree and many CPUs, which steal from one another.
pub fn crowded(player: &mut Player) -> Played {
    let shape = Shape {
        cpus: player.rng.between(2, 12) as usize,
        ..sizes::small(&mut player.rng)
    };
    let tables = states::settled(&mut player.rng, shape);
    player.load(tables);
    let mut schedule = Schedule::new(player, true);
    schedule.burst = 0;
    ticks(player, schedule, 1_000)
}

/// Several near blocks.
pub fn near(player: &mut Player) -> Played {
    let shape = sizes::tall(&mut player.rng);
    let tables = states::settled(&mut player.rng, shape);
    player.load(tables);
    let schedule = Schedule::new(player, true);
    ticks(player, schedule, 300)
}
