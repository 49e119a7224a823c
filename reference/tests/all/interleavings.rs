//! Interleaved steps: blocks never overlap, bounds hold, counts settle, and
//! a cut loses at most the block of each get.

use crate::common::Packed;
use reference::answer::{Answer, Refusal};
use reference::layout;
use reference::operation::Operation;
use reference::rng::Rng;
use reference::zone::Zone;

#[derive(Clone, Copy, Debug, PartialEq, Eq)]
struct Block {
    frame: u64,
    order: u64,
}

/// What a CPU is doing.
#[derive(Clone, Copy, Debug)]
struct Work {
    operation: Operation,
    /// The block of a put; none for a get.
    put: Option<Block>,
    order: u64,
    steps: usize,
}

struct Run {
    rng: Rng,
    zone: Zone,
    held: Vec<Block>,
    work: Vec<Option<Work>>,
}

impl Run {
    fn new(n: usize, cpus: usize, seed: u64) -> Self {
        let mut packed = Packed::created(n, cpus);
        Run {
            rng: Rng::new(seed, n as u64),
            zone: Zone::load(&packed.tables(), None),
            held: Vec::new(),
            work: vec![None; cpus],
        }
    }

    fn begin(&mut self, cpu: usize, gets: u64, huge: u64) {
        let put = !self.held.is_empty() && !self.rng.percent(gets);
        let work = if put {
            let index = self.rng.below(self.held.len() as u64) as usize;
            let block = self.held.swap_remove(index);
            let begun = self.zone.begin_put(cpu as u64, block.frame, block.order);
            (begun, Some(block), block.order)
        } else {
            let order = if self.rng.percent(huge) {
                9
            } else {
                self.rng.pick(&[0, 0, 0, 0, 1, 2, 3, 4, 5, 6])
            };
            (self.zone.begin_get(cpu as u64, order), None, order)
        };
        let (begun, put, order) = work;
        self.work[cpu] = Some(Work {
            operation: begun.under_way().expect("begun"),
            put,
            order,
            steps: 0,
        });
    }

    fn step(&mut self, cpu: usize) {
        let Some(mut work) = self.work[cpu].take() else {
            return;
        };
        work.steps += 1;
        let (trees, cpus) = (self.zone.trees.len(), self.zone.cpus.len());
        let bound = if work.put.is_some() {
            4
        } else {
            330 * (3 * trees + cpus + 33)
        };
        assert!(work.steps <= bound);
        match (self.zone.step(work.operation), work.put) {
            (Answer::UnderWay(operation), _) => {
                self.work[cpu] = Some(Work { operation, ..work });
            }
            (Answer::Done(frame), Some(block)) => assert_eq!(frame, block.frame),
            (Answer::Done(frame), None) => self.hold(Block {
                frame,
                order: work.order,
            }),
            (answer, put) => {
                assert_eq!(answer, Answer::Refused(Refusal::NoRoom));
                assert_eq!(put, None);
            }
        }
    }

    fn hold(&mut self, block: Block) {
        for held in &self.held {
            let overlap =
                held.frame < block.frame + size(block) && block.frame < held.frame + size(*held);
            assert!(!overlap, "{held:?} {block:?}");
        }
        self.held.push(block);
    }

    fn go(&mut self, steps: u64, gets: u64, huge: u64) {
        for _ in 0..steps {
            let cpu = self.rng.below(self.work.len() as u64) as usize;
            if self.work[cpu].is_none() {
                self.begin(cpu, gets, huge);
            }
            for _ in 0..self.rng.between(1, 12) {
                self.step(cpu);
            }
        }
    }

    fn end_all(&mut self) {
        while self.work.iter().any(Option::is_some) {
            let cpu = self.rng.below(self.work.len() as u64) as usize;
            self.step(cpu);
        }
    }

    /// Every held block is taken.
    fn check_held(&self) {
        for block in &self.held {
            let frame = block.frame as usize;
            let taken = if block.order == 9 {
                self.zone.children[frame / 512].a
            } else {
                let (bit, size) = (frame % 64, size(*block) as usize);
                self.zone.words[frame / 64].full(layout::Run { bit, size })
            };
            assert!(taken, "{block:?}");
        }
    }

    fn taken_frames(&self) -> usize {
        (0..self.zone.children.len())
            .map(|huge| {
                if self.zone.children[huge].a {
                    512
                } else {
                    512 - self.zone.zeros(huge)
                }
            })
            .sum()
    }

    fn held_frames(&self) -> usize {
        self.held.iter().map(|&block| size(block) as usize).sum()
    }
}

fn size(block: Block) -> u64 {
    1 << block.order
}

const SIZES: [(usize, usize); 8] = [
    (1, 1),
    (1, 4),
    (2, 3),
    (3, 8),
    (31, 2),
    (33, 4),
    (70, 3),
    (97, 6),
];

#[test]
fn counts_settle() {
    for (n, cpus) in SIZES {
        for seed in 0..6 {
            let mut run = Run::new(n, cpus, seed);
            for (gets, huge) in [(90, 40), (50, 10), (60, 90), (30, 50), (55, 0)] {
                run.go(400, gets, huge);
            }
            run.end_all();
            run.check_held();
            assert_eq!(run.taken_frames(), run.held_frames());
            assert_eq!(
                run.zone.close(),
                Answer::Done(0),
                "n {n}, {cpus} CPUs, seed {seed}"
            );
        }
    }
}

#[test]
fn a_cut_loses_at_most_one_block_an_operation() {
    for (n, cpus) in SIZES {
        for seed in 100..106 {
            let mut run = Run::new(n, cpus, seed);
            for (gets, huge) in [(90, 50), (50, 30)] {
                run.go(300, gets, huge);
            }
            let most: usize = run.work.iter().flatten().map(|work| 1 << work.order).sum();
            for tree in &mut run.zone.trees {
                tree.count = 0x7FFF;
            }
            let mut answer = run.zone.open_first();
            while let Answer::UnderWay(record) = answer {
                answer = run.zone.open_next(record);
            }
            assert_eq!(answer, Answer::Done(0));
            run.check_held();
            let lost = run.taken_frames() - run.held_frames();
            assert!(lost <= most, "{lost} lost of at most {most}");
            assert_eq!(run.zone.close(), Answer::Done(0));
        }
    }
}

/// The frames that a get of a run has lost when it is cut after each of its steps.
fn lost_at_each_step(order: u64) -> Vec<u32> {
    let mut packed = Packed::created(65, 2);
    let mut answer = packed.tables().begin_get(0, order);
    let mut lost = Vec::new();
    while let Answer::UnderWay(operation) = answer {
        answer = packed.tables().step(operation);
        let mut cut = packed.clone();
        cut.trees.fill(0xFFFF);
        cut.cpus.fill(u64::MAX);
        assert_eq!(cut.open(), (0, 1 + 65 + 3 + 2));
        let free: u32 = cut.trees.iter().map(|&tree| u32::from(tree)).sum();
        lost.push(65 * 512 - free);
    }
    assert_eq!(answer, Answer::Done(0));
    lost
}

/// Nothing is lost before the taking store, which takes the whole run.
#[test]
fn a_get_cut_at_each_step() {
    for order in 0..=6 {
        let size = 1 << order;
        let lost = lost_at_each_step(order);
        assert_eq!(lost, [0, 0, 0, 0, 0, 0, 0, size, size]);
    }
}
