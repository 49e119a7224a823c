//! Generated scripts of requests.
//!
//! A script is made while its requests are run, so that it can put what its
//! gets returned and drive a tree's count to a wanted number.

use std::io::Write;

use crate::layout::{CHILD_FRAMES, TREE_CHILDREN, TREE_FRAMES};
use crate::rng::Rng;
use crate::session::{Reply, Request, Session};

const CHILD: u64 = CHILD_FRAMES as u64;
const TREE: u64 = TREE_FRAMES as u64;
const SIZES: u64 = 256;
const CPU_COUNTS: u64 = 8;
/// One script of so many is aimed; the others go round all sizes.
const AIMED_EVERY: u64 = 4;
/// Requests that filling a child frame by frame needs, and a few more.
const LONG: usize = 620;
/// The orders that blocks have.
const ORDERS: [u64; 8] = [0, 1, 2, 3, 4, 5, 6, 9];
/// The longest run's order.
const LONGEST: u64 = 6;

/// What a run's scripts are made from.
#[derive(Clone, Copy, Debug)]
pub struct Scripts {
    pub seed: u64,
    /// Requests of a script; a script aimed at an edge may need more.
    pub requests: usize,
}

/// What a script is aimed at.
#[derive(Clone, Copy, Debug, PartialEq, Eq)]
enum Aim {
    /// A pass that looks at an unreserved tree of this count.
    Edge(u64),
    /// Fewer trees than CPUs.
    Steal,
    /// Failed searches and moved reservations in many trees.
    Moves,
    /// A zone filled frame by frame.
    Fill,
    /// A zone filled by runs, of which parts are put.
    Fragments,
    /// Runs of all sizes and single frames.
    Runs,
    /// A line of another form.
    Form,
}

const AIMS: [Aim; 10] = [
    Aim::Edge(2_047),
    Aim::Edge(2_048),
    Aim::Edge(14_336),
    Aim::Edge(14_337),
    Aim::Steal,
    Aim::Moves,
    Aim::Fill,
    Aim::Form,
    Aim::Fragments,
    Aim::Runs,
];

impl Scripts {
    /// The script of a number, counted from 0.
    pub fn script(&self, number: u64) -> Vec<u8> {
        let mut rng = Rng::new(self.seed, number);
        if number % AIMED_EVERY == AIMED_EVERY - 1 {
            let aim = AIMS[(number / AIMED_EVERY) as usize % AIMS.len()];
            self.aimed(aim, rng)
        } else {
            let (n, cpus) = self.ordinary_size(number - number / AIMED_EVERY);
            let nearly_full = rng.percent(40);
            let mut maker = Maker::new(n, cpus, rng, self.requests);
            if nearly_full {
                maker.fill(9);
            }
            maker.mixes();
            maker.text
        }
    }

    /// Every 256 ordinary scripts in turn have all sizes.
    fn ordinary_size(&self, index: u64) -> (u64, u64) {
        let n = 1 + (index * 101 + self.seed % SIZES) % SIZES;
        let cpus = 1 + (index + index / SIZES) % CPU_COUNTS;
        (n, cpus)
    }

    fn aimed(&self, aim: Aim, mut rng: Rng) -> Vec<u8> {
        let (n, cpus) = aimed_size(aim, &mut rng);
        let needed = match aim {
            Aim::Edge(_) | Aim::Fill | Aim::Fragments => LONG,
            _ => 0,
        };
        let mut maker = Maker::new(n, cpus, rng, self.requests.max(needed));
        match aim {
            Aim::Edge(count) => maker.edge(count),
            Aim::Steal => maker.crowd(),
            Aim::Moves => maker.crumble(),
            Aim::Fill => maker.fill_base(),
            Aim::Fragments => maker.fragment(),
            Aim::Runs => maker.runs(),
            Aim::Form => return maker.other_form(),
        }
        maker.mixes();
        maker.text
    }
}

/// Huge frames and CPUs that suit an aim.
fn aimed_size(aim: Aim, rng: &mut Rng) -> (u64, u64) {
    match aim {
        Aim::Edge(_) => {
            let n = TREE_CHILDREN as u64 * rng.between(2, 7) + rng.pick(&[0, 29, 30, 31]);
            (n, rng.between(2, CPU_COUNTS))
        }
        Aim::Steal => (rng.between(1, 96), rng.between(3, CPU_COUNTS)),
        Aim::Moves => (rng.between(65, SIZES), rng.between(1, CPU_COUNTS)),
        Aim::Fill | Aim::Fragments => (rng.between(1, 3), rng.between(1, CPU_COUNTS)),
        Aim::Runs => (rng.between(1, 40), rng.between(1, CPU_COUNTS)),
        Aim::Form => (rng.between(1, SIZES), rng.between(1, CPU_COUNTS)),
    }
}

/// A taken block.
#[derive(Clone, Copy, Debug, PartialEq, Eq)]
struct Block {
    frame: u64,
    order: u64,
}

impl Block {
    fn size(self) -> u64 {
        1 << self.order
    }

    fn covers(self, other: Block) -> bool {
        self.frame <= other.frame && other.frame + other.size() <= self.frame + self.size()
    }

    fn halves(self) -> [Block; 2] {
        let order = self.order - 1;
        [0, 1].map(|half| Block {
            frame: self.frame + (half << order),
            order,
        })
    }

    /// The largest aligned parts that stay when a smaller part is put.
    fn without(self, part: Block) -> Vec<Block> {
        let mut kept = Vec::new();
        let mut rest = self;
        while rest.order > part.order {
            let [low, high] = rest.halves();
            let (inside, outside) = if low.covers(part) {
                (low, high)
            } else {
                (high, low)
            };
            kept.push(outside);
            rest = inside;
        }
        kept
    }
}

/// How a stretch of requests is mixed, in percent.
#[derive(Clone, Copy, Debug)]
struct Mix {
    gets: u64,
    huge: u64,
    /// Runs among the gets that are not huge.
    runs: u64,
    /// The largest order of a run, not in percent.
    longest: u64,
    /// Puts of a part of a run.
    parts: u64,
    wrong: u64,
    /// Puts of the newest block.
    newest: u64,
    /// Requests of one and the same CPU.
    one_cpu: u64,
    cpu: u64,
}

struct Maker {
    rng: Rng,
    session: Session,
    n: u64,
    cpus: u64,
    held: Vec<Block>,
    /// Blocks put back, for double puts.
    given: Vec<Block>,
    /// Requests still to be made.
    left: usize,
    text: Vec<u8>,
}

impl Maker {
    fn new(n: u64, cpus: u64, rng: Rng, requests: usize) -> Self {
        Maker {
            rng,
            session: Session::new(n, cpus, None).expect("sizes are in range"),
            n,
            cpus,
            held: Vec::new(),
            given: Vec::new(),
            left: requests,
            text: format!("z {n} {cpus}\n").into_bytes(),
        }
    }

    /// Writes a request, runs it and keeps account of its block.
    fn ask(&mut self, request: Request) -> Option<Reply> {
        self.left = self.left.checked_sub(1)?;
        self.write(request);
        let reply = self.session.ask(request);
        if reply.number == 0 {
            self.account(request, reply.frame);
        }
        Some(reply)
    }

    fn account(&mut self, request: Request, frame: u64) {
        match request {
            Request::Get { order, .. } => self.held.push(Block { frame, order }),
            Request::Put { order, .. } => {
                let block = Block { frame, order };
                self.give(block);
                self.given.push(block);
            }
        }
    }

    /// Takes a put block out of those held, or out of the one that it is a part of.
    fn give(&mut self, block: Block) {
        let overlaps = |held: &Block| held.covers(block) || block.covers(*held);
        while let Some(index) = self.held.iter().rposition(overlaps) {
            let held = self.held.swap_remove(index);
            self.held.extend(held.without(block));
        }
    }

    fn write(&mut self, request: Request) {
        let (letter, numbers) = match request {
            Request::Get { cpu, order } => ('g', vec![cpu, order]),
            Request::Put { cpu, frame, order } => ('p', vec![cpu, frame, order]),
        };
        let mut line = String::from(letter);
        for number in numbers {
            line.push(' ');
            line.push_str(&self.digits(number));
        }
        writeln!(self.text, "{line}").expect("vectors do not fail");
    }

    /// A number's digits, now and then with zeros before them; the largest
    /// number also as one past 64 bits.
    fn digits(&mut self, number: u64) -> String {
        let zeros = if self.rng.percent(1) {
            self.rng.between(1, 30) as usize
        } else {
            0
        };
        let tail = match number {
            u64::MAX => self
                .rng
                .pick(&[
                    "18446744073709551615",
                    "18446744073709551616",
                    "18446744073709552000",
                    "99999999999999999999",
                    "340282366920938463463374607431768211456",
                ])
                .to_string(),
            _ => number.to_string(),
        };
        "0".repeat(zeros) + &tail
    }

    fn get(&mut self, cpu: u64, order: u64) -> Option<Reply> {
        self.ask(Request::Get { cpu, order })
    }

    fn put(&mut self, cpu: u64, block: Block) -> Option<Reply> {
        self.ask(Request::Put {
            cpu,
            frame: block.frame,
            order: block.order,
        })
    }

    fn any_cpu(&mut self) -> u64 {
        self.rng.below(self.cpus)
    }

    fn any_order(&mut self, mix: Mix) -> u64 {
        if self.rng.percent(mix.huge) {
            9
        } else if self.rng.percent(mix.runs) {
            self.rng.between(1, mix.longest)
        } else {
            0
        }
    }
}

// Stretches of mixed requests.
impl Maker {
    /// Mixed requests until the script has its length.
    fn mixes(&mut self) {
        while self.left > 0 {
            let mix = self.any_mix();
            let stretch = self.rng.between(5, 80);
            self.stretch(mix, stretch);
        }
    }

    fn any_mix(&mut self) -> Mix {
        Mix {
            gets: self.rng.pick(&[15, 35, 48, 52, 65, 85]),
            huge: self.rng.pick(&[0, 5, 30, 50, 80, 100]),
            runs: self.rng.pick(&[0, 30, 60, 95]),
            longest: self.rng.between(1, LONGEST),
            parts: self.rng.pick(&[0, 20, 70]),
            wrong: self.rng.pick(&[0, 4, 12]),
            newest: self.rng.pick(&[0, 50, 95]),
            one_cpu: self.rng.pick(&[0, 60, 95]),
            cpu: self.any_cpu(),
        }
    }

    fn stretch(&mut self, mix: Mix, requests: u64) {
        for _ in 0..requests {
            let cpu = if self.rng.percent(mix.one_cpu) {
                mix.cpu
            } else {
                self.any_cpu()
            };
            if self.rng.percent(mix.wrong) {
                self.wrong();
            } else if self.held.is_empty() || self.rng.percent(mix.gets) {
                let order = self.any_order(mix);
                self.get(cpu, order);
            } else {
                let block = self.any_held(mix.newest);
                let block = if self.rng.percent(mix.parts) {
                    self.part_of(block)
                } else {
                    block
                };
                self.put(cpu, block);
            }
        }
    }

    fn any_held(&mut self, newest: u64) -> Block {
        let last = self.held.len() - 1;
        if self.rng.percent(newest) {
            self.held[last]
        } else {
            self.rng.pick(&self.held)
        }
    }

    /// A smaller part of a run; a block of another order as it is.
    fn part_of(&mut self, block: Block) -> Block {
        if !(1..=LONGEST).contains(&block.order) {
            return block;
        }
        let order = self.rng.below(block.order);
        let part = self.rng.below(block.size() >> order);
        Block {
            frame: block.frame + (part << order),
            order,
        }
    }

    /// A request that most likely is refused, for any set of reasons.
    fn wrong(&mut self) {
        let (cpu, order) = (self.cpu_or_far(), self.order_or_odd());
        match self.rng.below(12) {
            0 | 1 => self.get(cpu, order),
            2 => self.again(cpu),
            3 | 4 => self.other_order(cpu),
            5 => self.misaligned(cpu),
            _ => {
                let frame = self.frame_or_far();
                self.raw_put(cpu, frame, order)
            }
        };
    }

    fn raw_put(&mut self, cpu: u64, frame: u64, order: u64) -> Option<Reply> {
        self.put(cpu, Block { frame, order })
    }

    /// Puts a block that was put before.
    fn again(&mut self, cpu: u64) -> Option<Reply> {
        let block = *self.given.last()?;
        self.put(cpu, block)
    }

    /// Puts a block of any order that has a frame of a held one.
    fn other_order(&mut self, cpu: u64) -> Option<Reply> {
        if self.held.is_empty() {
            return None;
        }
        let held = self.any_held(50);
        let inside = held.frame + self.rng.below(held.size());
        let order = self.rng.pick(&ORDERS);
        self.raw_put(cpu, inside >> order << order, order)
    }

    /// Puts a held block from a frame inside it on.
    fn misaligned(&mut self, cpu: u64) -> Option<Reply> {
        if self.held.is_empty() {
            return None;
        }
        let held = self.any_held(50);
        let inside = held.frame + self.rng.below(held.size());
        self.raw_put(cpu, inside, held.order)
    }

    fn cpu_or_far(&mut self) -> u64 {
        let past = self.cpus + self.rng.below(70);
        if self.rng.percent(70) {
            self.any_cpu()
        } else {
            self.rng.pick(&[self.cpus, self.cpus, past, u64::MAX])
        }
    }

    fn order_or_odd(&mut self) -> u64 {
        if self.rng.percent(70) {
            self.rng.pick(&[0, 0, 1, 2, 3, 4, 5, 6, 9, 9, 9])
        } else {
            self.rng
                .pick(&[7, 7, 8, 8, 10, 64, 256, u64::MAX - 6, u64::MAX])
        }
    }

    fn frame_or_far(&mut self) -> u64 {
        let end = self.n * CHILD;
        let far = end + self.rng.below(TREE);
        let aligned = self.rng.below(self.n) * CHILD;
        let inside = aligned + self.rng.below(CHILD);
        if self.rng.percent(60) {
            self.rng.pick(&[aligned, inside, end - 1])
        } else {
            self.rng
                .pick(&[end, end, end + 1, end + CHILD, far, 1 << 32, u64::MAX])
        }
    }
}

// Aimed beginnings of scripts.
impl Maker {
    /// Takes blocks of one order until there is no room.
    fn fill(&mut self, order: u64) {
        loop {
            let cpu = self.any_cpu();
            match self.get(cpu, order) {
                Some(Reply { number: 0, .. }) => {}
                _ => break,
            }
        }
    }

    /// Leaves an unreserved tree with a count, then looks for a tree.
    ///
    /// All trees being free, the first get takes tree 0. Base frames and then
    /// huge frames drain it until a get moves on; puts then raise its count.
    fn edge(&mut self, count: u64) {
        let base = if count % CHILD == 1 { CHILD - 1 } else { 1 };
        for _ in 0..base {
            self.get(0, 0);
        }
        while let Some(Reply {
            number: 0, frame, ..
        }) = self.get(0, 9)
        {
            if frame >= TREE {
                break;
            }
        }
        let wanted = count - (CHILD - base);
        self.put_from_first_tree(9, wanted / CHILD);
        self.put_from_first_tree(0, wanted % CHILD);
        let order = self.rng.pick(&[0, 0, 3, 6, 9, 9, 9]);
        self.get(1, order);
    }

    fn put_from_first_tree(&mut self, order: u64, blocks: u64) {
        for _ in 0..blocks {
            let wanted = |held: &&Block| held.order == order && held.frame < TREE;
            if let Some(&block) = self.held.iter().find(wanted) {
                self.put(0, block);
            }
        }
    }

    /// Every CPU takes and puts, the trees being fewer.
    fn crowd(&mut self) {
        let mix = Mix {
            gets: 60,
            huge: self.rng.pick(&[10, 50, 90]),
            runs: self.rng.pick(&[0, 50]),
            longest: LONGEST,
            parts: 20,
            wrong: 0,
            newest: 20,
            one_cpu: 0,
            cpu: 0,
        };
        let stretch = self.rng.between(80, 200);
        self.stretch(mix, stretch);
    }

    /// Breaks huge frames up, so that huge gets fail and move on.
    fn crumble(&mut self) {
        let rounds = self.rng.between(40, 120);
        for _ in 0..rounds {
            let cpu = self.any_cpu();
            let order = self.rng.pick(&[0, 0, 0, 1, 6]);
            self.get(cpu, order);
            for _ in 0..self.rng.between(1, 4) {
                self.get(cpu, 9);
            }
            if self.rng.percent(20) && !self.held.is_empty() {
                let block = self.any_held(0);
                self.put(cpu, block);
            }
        }
    }

    /// Fills a small zone frame by frame.
    fn fill_base(&mut self) {
        let cpu = self.any_cpu();
        for _ in 1..self.n {
            self.get(cpu, 9);
        }
        for _ in 0..CHILD + 2 {
            let cpu = if self.rng.percent(90) {
                cpu
            } else {
                self.any_cpu()
            };
            self.get(cpu, 0);
        }
    }
}

// Runs.
impl Maker {
    /// Fills a small zone by runs of one order and puts parts of them, so that counts suffice where no run fits.
    fn fragment(&mut self) {
        let least = if self.n == 1 { 1 } else { 3 };
        let order = self.rng.between(least, LONGEST);
        self.fill(order);
        let mut blocks = self.held.clone();
        let whole = self.rng.pick(&[0, 0, 10]);
        while let Some(block) = blocks.pop() {
            let part = if self.rng.percent(whole) {
                block
            } else {
                self.part_of(block)
            };
            let cpu = self.any_cpu();
            self.put(cpu, part);
        }
        for _ in 0..8 {
            let cpu = self.any_cpu();
            let order = self.rng.between(0, order);
            self.get(cpu, order);
        }
    }

    /// Runs of all sizes and single frames, more of them taken than put.
    fn runs(&mut self) {
        let mix = Mix {
            gets: 60,
            huge: self.rng.pick(&[0, 5]),
            runs: self.rng.pick(&[50, 80, 95]),
            longest: LONGEST,
            parts: self.rng.pick(&[20, 50, 90]),
            wrong: 5,
            newest: 10,
            one_cpu: self.rng.pick(&[0, 90]),
            cpu: 0,
        };
        let stretch = self.rng.between(200, 400);
        self.stretch(mix, stretch);
    }
}

// Lines of another form.
impl Maker {
    /// A script with a line of another form, and requests after it.
    fn other_form(mut self) -> Vec<u8> {
        if self.rng.percent(25) {
            let first = self.rng.pick(&FIRST_LINES);
            self.text = [first, b"\n"].concat();
        }
        let before = self.rng.between(0, 40);
        let mix = self.any_mix();
        self.stretch(mix, before);
        let line = self.rng.pick(&OTHER_LINES);
        self.text.extend_from_slice(line);
        if self.rng.percent(30) {
            return self.text;
        }
        self.text.push(b'\n');
        self.stretch(mix, 20);
        if self.rng.percent(30) {
            self.text.pop();
        }
        self.text
    }
}

/// First lines, most of them wrong.
const FIRST_LINES: [&[u8]; 16] = [
    b"",
    b"z",
    b"z 1",
    b"z 0 1",
    b"z 1 0",
    b"z 257 1",
    b"z 256 9",
    b"z 256 8 ",
    b"z  8 8",
    b"z 8 8 8",
    b"z +8 8",
    b"Z 8 8",
    b"z 8 8\r",
    b"z 18446744073709551617 1",
    b"z 0000000000000000000000256 08",
    b"g 0 0",
];

/// Lines of which none is a request, but for the last four.
const OTHER_LINES: [&[u8]; 32] = [
    b"",
    b" ",
    b"g",
    b"p",
    b"g ",
    b"g 0",
    b"g 0 ",
    b"p 0 0",
    b"p 0 0 ",
    b"g 0 0 ",
    b"g 0 0 0",
    b"p 0 0 0 0",
    b" g 0 0",
    b"g  0 0",
    b"g 0  0",
    b"g\t0 0",
    b"g 0\t0",
    b"g -0 0",
    b"g +0 0",
    b"g 0 0x0",
    b"g 0 1e1",
    b"p 0 1.0 0",
    b"p 0 1_0 0",
    b"G 0 0",
    b"gg 0 0",
    b"g 0 0\r",
    b"g 0 \xD9\xA0",
    b"z 1 1",
    b"g 00 00",
    b"g 18446744073709551616 0",
    b"p 0 18446744073709551616 0",
    b"p 0 18446744073709551615 9",
];
