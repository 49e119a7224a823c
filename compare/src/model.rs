//! The reference's side: a decoded zone, called with the library's records.

use reference::answer::{Answer, Refusal};
use reference::layout::MAX_HUGE_FRAMES;
use reference::packed::Tables;
use reference::zone::Zone;

use crate::call::{Call, Outcome};
use crate::fault::{Fault, InRuns};
use crate::library::Packed;
use crate::record::Record;
use crate::translate::{
    Shape, creating, of_creating, of_opening, of_operation, opening, operation,
};

/// More steps than any operation takes, at most 330 for each of 6,241 places. One with a fault may not end by itself.
const MOST_STEPS: u64 = 1 << 22;

/// The reference's zone, and the fault that was seeded.
#[derive(Clone, Debug)]
pub struct Model {
    pub zone: Zone,
    pub fault: Option<Fault>,
}

impl Model {
    /// Decodes packed tables.
    pub fn load(packed: &mut Packed, fault: Option<Fault>) -> Self {
        Model {
            zone: Zone::load(&lent(packed), fault.and_then(Fault::rule)),
            fault,
        }
    }

    /// Makes a call of the reference on packed tables, in the library's place.
    pub fn call_on(packed: &mut Packed, call: &Call, record: &mut [u64]) -> Outcome {
        let mut model = Model::load(packed, None);
        let outcome = model.call(call, record);
        model.zone.store(&mut lent(packed));
        outcome
    }

    /// The shape by the tables' lengths; a call with wrong ones is refused before its record is looked at.
    pub fn shape(&self) -> Shape {
        Shape {
            n: self.zone.children.len(),
            cpus: self.zone.cpus.len(),
        }
    }

    /// Makes a call of the reference.
    pub fn call(&mut self, call: &Call, record: &mut [u64]) -> Outcome {
        if !call.has_record() {
            return self.close(*call == Call::Settled);
        }
        let Ok(words) = <&mut [u64; 2]>::try_from(record) else {
            return self.bad_slice(call);
        };
        let (last, steps) = match call.fuel() {
            None => (self.step(call, *words), None),
            Some(fuel) => {
                let (last, steps) = match call.beginning() {
                    None => self.run(call, *words, self.allowed(fuel)),
                    Some(beginning) => self.begun_run(&beginning, *words, fuel),
                };
                (last, Some(steps))
            }
        };
        *words = last.words;
        Outcome {
            number: last.number,
            frame: last.frame,
            steps,
        }
    }

    /// The steps that a run is allowed: fuel 0 counts as 1.
    fn allowed(&self, fuel: u64) -> u64 {
        match self.fault.and_then(Fault::in_runs) {
            Some(InRuns::NoFuelNoStep) => fuel,
            _ => fuel.max(1),
        }
    }

    /// Single steps until the answer is not 1 or the fuel is used up.
    fn run(&mut self, call: &Call, words: [u64; 2], fuel: u64) -> (Step, u64) {
        let single = match *call {
            Call::CreateRun { n, .. } => Call::CreateStep { n },
            Call::OpenRun { .. } => Call::OpenStep,
            _ => Call::Step,
        };
        let mut last = Step {
            number: 1,
            frame: 0,
            words,
        };
        let mut steps = 0;
        while steps < fuel.min(MOST_STEPS) && last.number == 1 {
            last = self.step(&single, last.words);
            steps += 1;
        }
        (last, steps)
    }

    /// A get or put begun and, if that is answered 1, run.
    fn begun_run(&mut self, beginning: &Call, words: [u64; 2], fuel: u64) -> (Step, u64) {
        let fault = self.fault.and_then(Fault::in_runs);
        let begun = self.step(beginning, words);
        if begun.number != 1 {
            return match fault {
                Some(InRuns::RefusedKeepsRecord) => (Step { words, ..begun }, 0),
                Some(InRuns::RefusedRuns) => self.run(beginning, words, fuel),
                _ => (begun, 0),
            };
        }
        let fuel = match fault {
            Some(InRuns::BeginTakesFuel) => fuel.saturating_sub(1),
            _ => fuel,
        };
        let (mut last, mut steps) = self.run(beginning, begun.words, fuel);
        match fault {
            Some(InRuns::BeginCounted) => steps += 1,
            Some(InRuns::RecordLost) if last.number == 1 => last.words = [0, 0],
            Some(InRuns::RecordOfBegin) if last.number == 1 => last.words = begun.words,
            _ => {}
        }
        (last, steps)
    }

    /// A call that is not a run, with a record of two words.
    fn step(&mut self, call: &Call, words: [u64; 2]) -> Step {
        let shape = self.shape();
        let record = Record::split(words);
        let zone = &mut self.zone;
        match *call {
            Call::Create { n } => Step::of(zone.create_first(n), shape, of_creating),
            Call::CreateStep { n } => {
                let given = creating(record, shape);
                Step::of(zone.create_next(n, given), shape, of_creating)
            }
            Call::Open => Step::of(zone.open_first(), shape, of_opening),
            Call::OpenStep => {
                let given = opening(record, shape);
                Step::of(zone.open_next(given), shape, of_opening)
            }
            Call::Get { cpu, order } => Step::of(zone.begin_get(cpu, order), shape, of_operation),
            Call::Put { cpu, frame, order } => {
                Step::of(zone.begin_put(cpu, frame, order), shape, of_operation)
            }
            _ => {
                let given = operation(record, shape);
                Step::of(zone.step(given), shape, of_operation)
            }
        }
    }

    /// Close; for settled, without its store.
    fn close(&mut self, settled: bool) -> Outcome {
        let header = self.zone.header.clone();
        let answer = self.zone.close();
        if settled {
            self.zone.header = header;
        }
        Outcome {
            number: answer.number().into(),
            frame: answer.frame(),
            steps: None,
        }
    }

    /// A record slice of another length than 2: 8, after what comes before 8. A run makes no step then.
    fn bad_slice(&self, call: &Call) -> Outcome {
        let before = match *call {
            Call::Create { n } | Call::CreateStep { n } | Call::CreateRun { n, .. } => {
                let right = (1..=MAX_HUGE_FRAMES).contains(&n);
                if right { Ok(()) } else { Err(Refusal::BadSize) }
            }
            Call::Open => self.zone.checked_header().map(|_| ()),
            _ => self.zone.check_running(),
        };
        let refusal = before.err().unwrap_or(Refusal::BadBuffers);
        Outcome {
            number: refusal as u64,
            frame: 0,
            steps: call.fuel().map(|_| 0),
        }
    }
}

/// Packed tables, lent to the reference.
fn lent(packed: &mut Packed) -> Tables<'_> {
    Tables {
        header: &mut packed.header,
        words: &mut packed.words,
        children: &mut packed.children,
        trees: &mut packed.trees,
        cpus: &mut packed.cpus,
    }
}

/// One answer, with the words handed back.
#[derive(Clone, Copy, Debug)]
struct Step {
    number: u64,
    frame: u64,
    words: [u64; 2],
}

impl Step {
    fn of<R>(answer: Answer<R>, shape: Shape, record: fn(&R, Shape) -> Record) -> Self {
        let words = match &answer {
            Answer::UnderWay(next) => record(next, shape).join(),
            _ => Record::FINISHED.join(),
        };
        Step {
            number: answer.number().into(),
            frame: answer.frame(),
            words,
        }
    }
}
