//! The plain engine makes the library's steps: the same answers, records and tables.

use bench::engines::{Engine, Side, Work};
use bench::memory::Memory;
use bench::plain::{Answer, Giving, Order, Place, Record, Search, Taking, codec};
use lovarntek::Zone;
use lovarntek::calls::Answered;
use reference::rng::Rng;

const ORDERS: [u64; 8] = [0, 1, 2, 3, 4, 5, 6, 9];

/// Both sides, with one record a CPU.
struct Pair {
    library: Memory,
    plain: Memory,
    records: Vec<[u64; 2]>,
    got: Vec<(u64, u64)>,
}

impl Pair {
    fn new(n: u64, cpus: usize) -> Self {
        let library = Memory::created(n, cpus);
        Pair {
            plain: library.clone(),
            library,
            records: vec![[0, 0]; cpus],
            got: Vec::new(),
        }
    }

    fn begin_get(&mut self, cpu: usize, order: u64) {
        let mut words = [0; 2];
        let told = self.library.library().get(&mut words, cpu as u64, order);
        let answer = self.plain.plain().get(cpu as u64, order);
        let mut other = [0; 2];
        let plain = self.plain.plain();
        let packed = plain.get_words(&mut other, cpu as u64, order);
        self.begun(cpu, (told, words), answer, (packed, other));
    }

    fn begin_put(&mut self, cpu: usize, frame: u64, order: u64) {
        let mut words = [0; 2];
        let mut library = self.library.library();
        let told = library.put(&mut words, cpu as u64, frame, order);
        let answer = self.plain.plain().put(cpu as u64, frame, order);
        let mut other = [0; 2];
        let plain = self.plain.plain();
        let packed = plain.put_words(&mut other, cpu as u64, frame, order);
        self.begun(cpu, (told, words), answer, (packed, other));
    }

    /// Compares a beginning: the library's, the plain engine's, and the same over words.
    fn begun(
        &mut self,
        cpu: usize,
        (told, words): (Answered, [u64; 2]),
        answer: Answer<Record>,
        packed: ((u64, u64), [u64; 2]),
    ) {
        let numbers = (told.number, told.frame);
        assert_eq!(numbers, (answer.number(), answer.frame()));
        assert_eq!((numbers, words), packed);
        if let Answer::UnderWay(record) = answer {
            assert_eq!(codec::encode(record), words);
        }
        self.records[cpu] = words;
    }

    /// One step of a record on both sides.
    fn step(&mut self, words: [u64; 2]) -> (u64, u64, [u64; 2]) {
        let mut stepped = words;
        let told = self.library.library().step(&mut stepped);
        let before = codec::decode(words);
        let answer = self.plain.plain().step(before);
        let seen = (answer.number(), answer.frame());
        assert_eq!((told.number, told.frame), seen, "{words:x?} {before:?}");
        if let Answer::UnderWay(record) = answer {
            assert_eq!(codec::encode(record), stepped, "{before:?}");
            assert_eq!(codec::encode(codec::decode(stepped)), stepped);
        }
        (told.number, told.frame, stepped)
    }

    fn compare(&self) {
        assert!(self.library == self.plain, "tables differ");
    }

    /// Something for a CPU: a beginning, or a step.
    fn turn(&mut self, cpu: usize, rng: &mut Rng) {
        let words = self.records[cpu];
        if words == [0, 0] {
            return self.begin(cpu, rng);
        }
        let (number, frame, next) = self.step(words);
        let (stage, order) = (words[0] >> 56, (words[0] >> 40) & 0xff);
        if number == 0 && stage == 15 {
            self.got.push((frame, order));
        }
        self.records[cpu] = next;
    }

    fn begin(&mut self, cpu: usize, rng: &mut Rng) {
        if rng.percent(45) && !self.got.is_empty() {
            let at = rng.below(self.got.len() as u64) as usize;
            let (frame, order) = self.got.swap_remove(at);
            self.begin_put(cpu, frame, order);
        } else if rng.percent(3) {
            let frames = self.library.library().children.len() as u64 * 512;
            let frame = rng.below(frames + 3);
            self.begin_put(cpu, frame, rng.below(11));
        } else {
            let order = if rng.percent(2) {
                rng.below(12)
            } else {
                rng.pick(&ORDERS)
            };
            self.begin_get(cpu, order);
        }
    }
}

#[test]
fn schedules() {
    for (n, cpus) in [(1, 1), (2, 3), (33, 4), (65, 8), (1_100, 5)] {
        let mut rng = Rng::new(7, n);
        let mut pair = Pair::new(n, cpus);
        for turn in 0..60_000 {
            let cpu = rng.below(cpus as u64) as usize;
            pair.turn(cpu, &mut rng);
            if n < 100 || turn % 200 == 0 {
                pair.compare();
            }
        }
        pair.compare();
    }
}

/// A record with its numbers near their limits, sometimes with a byte that does not belong there.
fn forged(rng: &mut Rng) -> [u64; 2] {
    let mut words = codec::encode(plausible(rng));
    if rng.percent(25) {
        let byte = small(rng, 4) << (8 * rng.below(8));
        words[rng.below(2) as usize] ^= byte;
    }
    words
}

/// A small number, sometimes a byte of any value.
fn small(rng: &mut Rng, most: u64) -> u64 {
    if rng.percent(95) {
        rng.below(most)
    } else {
        rng.below(256)
    }
}

fn plausible(rng: &mut Rng) -> Record {
    let number = rng.pick(&ORDERS);
    let (cpu, order) = (small(rng, 4) as u8, Order::new(number).unwrap());
    let frame = (rng.below(65 * 512 + 512) >> number << number) as u32;
    let (tree, base) = (small(rng, 3) as u16, small(rng, 3) as u16);
    let hand = rng.pick(&[0, 1, 7, 64, 511, 512, 600, 4_096, 16_384, 16_385]);
    let from = small(rng, 4) as u8;
    let place = match rng.below(6) {
        0 => Place::Own { tree },
        1 => Place::Near { tree, base },
        2 => Place::Partial { tree },
        3 => Place::Free { tree },
        4 => Place::Any { tree },
        _ => Place::Stolen { tree, from },
    };
    let search = Search {
        place,
        start: small(rng, 32) as u8,
        child: small(rng, 4) as u8,
    };
    let word = small(rng, 9) as u8;
    let put = |stage| Record::Put { cpu, order, stage };
    let stage = match rng.below(21) {
        0 => Taking::Own,
        1 => Taking::TakeCount { tree },
        2 => Taking::FillEntry { tree, hand },
        3 => Taking::ReturnHand { tree, hand },
        4 => Taking::LookAgain { tree },
        5 => Taking::Release(place),
        6 => Taking::Unreserve { place, hand },
        7 => Taking::Try(place),
        8 => Taking::Write { place, hand },
        9 => Taking::Steal { from },
        10 => Taking::StealCount { from, tree, hand },
        11 => Taking::Child(search),
        12 => Taking::Word { search, word },
        13 => Taking::GiveBack(search),
        14 => Taking::Last { frame },
        15 => Taking::Fail(place),
        16 => Taking::NoRoom,
        17 => return put(Giving::Clear { frame }),
        18 => return put(Giving::Raise { frame }),
        19 => return put(Giving::ToEntry { frame }),
        _ => return put(Giving::ToTree { frame }),
    };
    Record::Get { cpu, order, stage }
}

/// An entry changed on both sides.
fn damage(pair: &mut Pair, rng: &mut Rng) {
    let bits = rng.below(u64::MAX) >> rng.below(64) << rng.below(64);
    let zone = pair.library.library();
    let at = |length: usize, rng: &mut Rng| rng.below(length as u64) as usize;
    let (word, child) = (at(zone.words.len(), rng), at(zone.children.len(), rng));
    let (tree, cpu) = (at(zone.trees.len(), rng), at(zone.cpus.len(), rng));
    let table = rng.below(60);
    for memory in [&mut pair.library, &mut pair.plain] {
        let zone = memory.library();
        match table {
            0 => zone.header[0] ^= bits & 0x0000_0c00_0200_0001,
            1..=9 => zone.words[word] = bits,
            10..=19 => zone.children[child] = bits as u16 & 0x83ff,
            20..=24 => zone.children[child] = bits as u16,
            25..=34 => zone.trees[tree] = bits as u16,
            35..=44 => zone.cpus[cpu] = bits,
            45..=50 => zone.cpus[cpu] = (bits | 1 << 63) & 0x803f_bfff_0000_0000,
            _ => zone.cpus[cpu] = 0,
        }
    }
}

#[test]
fn forged_records() {
    let mut reached = [[0; 15]; 22];
    for n in [1, 40, 65] {
        let mut rng = Rng::new(11, n);
        let mut good = Pair::new(n, 4);
        let mut pair = Pair::new(n, 4);
        for round in 0..400_000 {
            if round % 50 == 0 {
                pair.library.copy_from(&mut good.library);
                pair.plain.copy_from(&mut good.library);
            }
            if rng.percent(30) {
                damage(&mut pair, &mut rng);
            }
            let words = forged(&mut rng);
            let (number, _, next) = pair.step(words);
            if let Some(answers) = reached.get_mut((words[0] >> 56) as usize) {
                answers[number as usize] += 1;
            }
            if number == 1 && rng.percent(50) {
                pair.step(next);
            }
            pair.compare();
        }
    }
    for (stage, answers) in reached.iter().enumerate().skip(1) {
        let (good, damaged) = (answers[0] + answers[1] + answers[2], answers[12]);
        assert!(good > 10, "stage {stage} is made too seldom: {answers:?}");
        let reads = !matches!(stage, 13 | 17);
        assert!(damaged > 10 || !reads, "stage {stage}: {answers:?}");
    }
    assert!(reached[18][6] > 10, "not taken: {:?}", reached[18]);
}

#[test]
fn words_and_runs() {
    let mut pair = Pair::new(65, 2);
    let mut rng = Rng::new(3, 0);
    for _ in 0..4_000 {
        let order = rng.pick(&ORDERS);
        pair.begin_get(0, order);
        let begun = pair.records[0];
        let mut words = begun;
        let told = pair.library.library().run(&mut words, u64::MAX);
        let told_of = (told.number, told.frame, told.steps);
        let mut other = begun;
        if rng.percent(50) {
            let (answer, steps) = pair.plain.plain().run(codec::decode(begun), u64::MAX);
            assert_eq!(told_of, (answer.number(), answer.frame(), steps));
        } else {
            let ran = pair.plain.plain().run_words(&mut other, u64::MAX);
            assert_eq!((told_of, words), (ran, other));
        }
        pair.compare();
        if told.number == 0 && rng.percent(60) {
            pair.begin_put(1, told.frame, order);
            let mut words = pair.records[1];
            while words != [0, 0] {
                let mut other = words;
                let told = pair.library.library().step(&mut words);
                let stepped = pair.plain.plain().step_words(&mut other);
                assert_eq!((told.number, told.frame), stepped);
                assert_eq!(words, other);
            }
            pair.compare();
        }
    }
}

/// A get, or a put of a frame.
#[derive(Clone, Copy, Debug)]
struct Asked {
    cpu: u64,
    frame: Option<u64>,
    order: u64,
    fuel: u64,
}

/// A get or put in one call: the library's, the plain engine's, and the same over words. The answer's number and frame, and the record.
fn one_call(pair: &mut Pair, words: &mut Memory, asked: Asked) -> (u64, u64, [u64; 2]) {
    let Asked {
        cpu,
        frame,
        order,
        fuel,
    } = asked;
    let (mut record, mut other) = ([3, 5], [8, 9]);
    let mut library = pair.library.library();
    let (told, (answer, steps), packed) = match frame {
        None => (
            library.get_run(&mut record, cpu, order, fuel),
            pair.plain.plain().get_run(cpu, order, fuel),
            words.plain().get_run_words(&mut other, cpu, order, fuel),
        ),
        Some(frame) => (
            library.put_run(&mut record, cpu, frame, order, fuel),
            pair.plain.plain().put_run(cpu, frame, order, fuel),
            words
                .plain()
                .put_run_words(&mut other, cpu, frame, order, fuel),
        ),
    };
    let numbers = (told.number, told.frame, told.steps);
    assert_eq!(
        numbers,
        (answer.number(), answer.frame(), steps),
        "{asked:?}"
    );
    assert_eq!((numbers, record), (packed, other), "{asked:?}");
    let handed = match answer {
        Answer::UnderWay(record) => codec::encode(record),
        _ => [0, 0],
    };
    assert_eq!(record, handed, "{asked:?}");
    pair.compare();
    assert!(*words == pair.plain, "tables differ over words");
    (told.number, told.frame, record)
}

/// Any get or put, most often with right numbers.
fn asked(rng: &mut Rng, got: &mut Vec<(u64, u64)>, n: u64, cpus: u64) -> Asked {
    let past = u64::from(rng.percent(3));
    let cpu = rng.below(cpus + past);
    let fuel = rng.pick(&[0, 1, 2, 3, 5, 9, u64::MAX, u64::MAX, u64::MAX, u64::MAX]);
    let (frame, order) = match rng.below(20) {
        0 => (Some(rng.below(n * 512 + 3)), rng.below(11)),
        1 => (None, rng.below(12)),
        2..=9 if !got.is_empty() => {
            let (frame, order) = got.swap_remove(rng.index(got.len()));
            (Some(frame), order)
        }
        _ => (None, rng.pick(&ORDERS)),
    };
    Asked {
        cpu,
        frame,
        order,
        fuel,
    }
}

#[test]
fn one_call_an_operation() {
    let mut reached = [[0; 15]; 2];
    for (n, cpus) in [(1, 1), (2, 3), (65, 4)] {
        let mut rng = Rng::new(9, n);
        let mut pair = Pair::new(n, cpus as usize);
        let mut good = Pair::new(n, cpus as usize);
        let mut got = Vec::new();
        for round in 0..30_000 {
            if round % 1_000 == 0 {
                pair.library.copy_from(&mut good.library);
                pair.plain.copy_from(&mut good.library);
                got.clear();
            }
            if round % 1_000 > 700 && rng.percent(20) {
                damage(&mut pair, &mut rng);
            }
            let mut words = pair.plain.clone();
            let asked = asked(&mut rng, &mut got, n, cpus);
            let (number, frame, mut record) = one_call(&mut pair, &mut words, asked);
            reached[usize::from(asked.frame.is_some())][number as usize] += 1;
            let mut last = (number, frame);
            while last.0 == 1 && rng.percent(97) {
                let (number, frame, next) = pair.step(record);
                (last, record) = ((number, frame), next);
            }
            if last.0 == 0 && asked.frame.is_none() {
                got.push((last.1, asked.order));
            }
        }
    }
    let [gets, puts] = reached;
    for number in [0, 1, 2, 3, 7, 9, 10, 12] {
        assert!(gets[number] > 10, "gets answered {number}: {gets:?}");
    }
    for number in [0, 1, 3, 4, 5, 6, 7, 9, 10, 12] {
        assert!(puts[number] > 10, "puts answered {number}: {puts:?}");
    }
}

/// Blocks of some orders taken and some of them given back.
struct Blocks;

impl Work for Blocks {
    type Made = Vec<u64>;

    fn with(self, engine: &mut impl Engine) -> Vec<u64> {
        let mut frames = Vec::new();
        for turn in 0..600 {
            let order = ORDERS[turn * 3 % 8];
            let frame = engine.get(turn as u64 % 3, order);
            if turn % 4 == 1 {
                engine.put(turn as u64 % 2, frame, order);
            }
            frames.push(frame);
        }
        frames
    }
}

#[test]
fn every_side_takes_the_same_blocks() {
    let mut memory = Memory::created(300, 3);
    let frames = Side::LibraryRun.with(&mut memory, Blocks);
    for side in Side::ALL {
        let mut other = Memory::created(300, 3);
        assert_eq!(side.with(&mut other, Blocks), frames, "{side:?}");
        // The reference works on tables of its own.
        let equal = other == memory || side == Side::Reference;
        assert!(equal, "{side:?}: tables differ");
    }
}

#[test]
fn lengths() {
    let mut pair = Pair::new(65, 2);
    pair.begin_get(0, 0);
    let words = pair.records[0];
    for table in 0..5 {
        for longer in [false, true] {
            let good = (pair.library.clone(), pair.plain.clone());
            for zone in [&mut pair.library, &mut pair.plain] {
                resize(zone, table, longer);
            }
            assert_ne!(pair.step(words).0, 1);
            pair.compare();
            for frame in [None, Some(0)] {
                let mut words = pair.plain.clone();
                let (cpu, order, fuel) = (0, 0, 9);
                let asked = Asked {
                    cpu,
                    frame,
                    order,
                    fuel,
                };
                assert_eq!(one_call(&mut pair, &mut words, asked).0, 8);
            }
            (pair.library, pair.plain) = good;
        }
    }
}

fn resize(memory: &mut Memory, table: usize, longer: bool) {
    let zone = memory.library();
    let (mut header, mut words) = (zone.header.to_vec(), zone.words.to_vec());
    let (mut children, mut trees) = (zone.children.to_vec(), zone.trees.to_vec());
    let mut cpus = zone.cpus.to_vec();
    match table {
        0 => header.resize(if longer { 2 } else { 0 }, 0),
        1 => words.resize(words.len() + usize::from(longer) * 2 - 1, 0),
        2 => children.resize(children.len() + usize::from(longer) * 2 - 1, 0),
        3 => trees.resize(trees.len() + usize::from(longer) * 2 - 1, 0),
        _ => cpus.resize(if longer { 65 } else { 0 }, 0),
    }
    memory.0 = Zone::from_tables(header, words, children, trees, cpus);
}

#[test]
fn creates_and_opens() {
    for (n, cpus) in [(1, 1), (33, 3), (65, 64)] {
        let mut rng = Rng::new(5, n);
        let mut pair = Pair::new(n, cpus);
        create(&mut pair, n);
        for clean in [false, true] {
            let zone = pair.library.library();
            for (word, entry) in zone.words.iter_mut().enumerate() {
                let flagged = word / 8 % 5 == 4;
                *entry = if flagged { 0 } else { rng.any() };
                zone.children[word / 8] = if flagged { 0x8000 } else { 17 };
            }
            if clean {
                zone.header[0] ^= 3 << 42;
            }
            pair.plain.copy_from(&mut pair.library);
            open(&mut pair);
        }
    }
}

fn create(pair: &mut Pair, n: u64) {
    let mut words = [0; 2];
    let told = pair.library.library().create(&mut words, n);
    let mut answer = pair.plain.plain().create(n);
    assert_eq!(told.number, answer.number());
    while let Answer::UnderWay(record) = answer {
        let told = pair.library.library().create_step(&mut words, n);
        answer = pair.plain.plain().create_run(record, n, 1).0;
        assert_eq!(told.number, answer.number());
        pair.compare();
    }
}

fn open(pair: &mut Pair) {
    let mut words = [0; 2];
    let told = pair.library.library().open(&mut words);
    let mut answer = pair.plain.plain().open();
    assert_eq!(told.number, answer.number());
    while let Answer::UnderWay(record) = answer {
        let told = pair.library.library().open_step(&mut words);
        answer = pair.plain.plain().open_run(record, 1).0;
        assert_eq!(told.number, answer.number());
        pair.compare();
    }
    assert_eq!(answer.number(), 0);
}
