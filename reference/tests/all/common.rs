//! Packed tables for tests.

use reference::answer::Answer;
use reference::operation::Operation;
use reference::packed::Tables;

/// Packed tables of any lengths and contents.
#[derive(Clone, Debug, PartialEq, Eq)]
pub struct Packed {
    pub header: Vec<u64>,
    pub words: Vec<u64>,
    pub children: Vec<u16>,
    pub trees: Vec<u16>,
    pub cpus: Vec<u64>,
}

impl Packed {
    /// Tables of the right lengths, filled with ones.
    pub fn filled(n: usize, cpus: usize) -> Self {
        Packed {
            header: vec![u64::MAX; 1],
            words: vec![u64::MAX; 8 * n],
            children: vec![u16::MAX; n],
            trees: vec![u16::MAX; n.div_ceil(32)],
            cpus: vec![u64::MAX; cpus],
        }
    }

    pub fn created(n: usize, cpus: usize) -> Self {
        let mut packed = Packed::filled(n, cpus);
        let mut answer = packed.tables().create_first(n as u64);
        while let Answer::UnderWay(record) = answer {
            answer = packed.tables().create_next(n as u64, record);
        }
        assert_eq!(answer, Answer::Done(0));
        packed
    }

    pub fn tables(&mut self) -> Tables<'_> {
        Tables {
            header: &mut self.header,
            words: &mut self.words,
            children: &mut self.children,
            trees: &mut self.trees,
            cpus: &mut self.cpus,
        }
    }

    /// Runs a begun operation to its end.
    pub fn end(&mut self, mut answer: Answer<Operation>) -> Answer<Operation> {
        while let Answer::UnderWay(operation) = answer {
            answer = self.tables().step(operation);
        }
        answer
    }

    pub fn get(&mut self, cpu: u64, order: u64) -> Answer<Operation> {
        let begun = self.tables().begin_get(cpu, order);
        self.end(begun)
    }

    pub fn put(&mut self, cpu: u64, frame: u64, order: u64) -> Answer<Operation> {
        let begun = self.tables().begin_put(cpu, frame, order);
        self.end(begun)
    }

    /// Runs an open to its end; gives the answer's number and the steps.
    pub fn open(&mut self) -> (u8, usize) {
        let mut answer = self.tables().open_first();
        let mut steps = 1;
        while let Answer::UnderWay(record) = answer {
            answer = self.tables().open_next(record);
            steps += 1;
        }
        (answer.number(), steps)
    }

    /// How many entries differ.
    pub fn changes(&self, other: &Packed) -> usize {
        fn count<T: PartialEq>(left: &[T], right: &[T]) -> usize {
            left.iter().zip(right).filter(|(l, r)| l != r).count()
        }
        count(&self.header, &other.header)
            + count(&self.words, &other.words)
            + count(&self.children, &other.children)
            + count(&self.trees, &other.trees)
            + count(&self.cpus, &other.cpus)
    }
}
