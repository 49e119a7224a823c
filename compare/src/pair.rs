//! Both sides of a comparison, with equal tables before each call.

use crate::call::{Call, Outcome};
use crate::difference::{self, Unequal};
use crate::fault::Fault;
use crate::library::Packed;
use crate::model::Model;

/// Who answers on the library's side.
#[derive(Clone, Copy, Debug, Default, PartialEq, Eq)]
pub enum Side {
    #[default]
    Library,
    /// The reference without a fault, to try the comparison itself.
    Reference,
}

/// The library's tables and the reference's zone.
#[derive(Clone, Debug)]
pub struct Pair {
    pub library: Packed,
    pub model: Model,
    pub side: Side,
}

/// What both sides answered.
#[derive(Clone, Copy, Debug, PartialEq, Eq)]
pub struct Answers {
    pub library: Outcome,
    pub reference: Outcome,
}

impl Pair {
    pub fn new(mut library: Packed, fault: Option<Fault>, side: Side) -> Self {
        let model = Model::load(&mut library, fault);
        Pair {
            library,
            model,
            side,
        }
    }

    /// Changes the tables of both sides.
    pub fn edit(&mut self, change: impl FnOnce(&mut Packed)) {
        change(&mut self.library);
        self.model = Model::load(&mut self.library, self.model.fault);
    }

    /// Makes a call on both sides; the record slice is the library's afterwards.
    pub fn call(&mut self, call: &Call, record: &mut [u64]) -> (Answers, Option<Unequal>) {
        let mut other = [0; 4];
        let other = &mut other[..record.len()];
        other.copy_from_slice(record);
        let answers = Answers {
            library: match self.side {
                Side::Library => self.library.call(call, record),
                Side::Reference => Model::call_on(&mut self.library, call, record),
            },
            reference: self.model.call(call, other),
        };
        let unequal = difference::answers(&answers.library, &answers.reference)
            .or_else(|| difference::records(record, other))
            .or_else(|| difference::tables(&self.library, &self.model.zone));
        (answers, unequal)
    }
}
