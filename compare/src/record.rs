//! The library's record of two words, field by field.

use std::ops::RangeInclusive;

/// Numbers of the stages.
pub mod stage {
    pub const OWN: u8 = 1;
    pub const TAKE_COUNT: u8 = 2;
    pub const FILL_ENTRY: u8 = 3;
    pub const RETURN_HAND: u8 = 4;
    pub const LOOK_AGAIN: u8 = 5;
    pub const RELEASE: u8 = 6;
    pub const UNRESERVE: u8 = 7;
    pub const TRY: u8 = 8;
    pub const WRITE: u8 = 9;
    pub const STEAL: u8 = 10;
    pub const STEAL_COUNT: u8 = 11;
    pub const CHILD: u8 = 12;
    pub const WORD: u8 = 13;
    pub const GIVE_BACK: u8 = 14;
    pub const LAST: u8 = 15;
    pub const FAIL: u8 = 16;
    pub const NO_ROOM: u8 = 17;
    pub const CLEAR: u8 = 18;
    pub const RAISE: u8 = 19;
    pub const TO_ENTRY: u8 = 20;
    pub const TO_TREE: u8 = 21;
    pub const CREATE_WORDS: u8 = 22;
    pub const CREATE_CHILDREN: u8 = 23;
    pub const CREATE_TREES: u8 = 24;
    pub const CREATE_CPUS: u8 = 25;
    pub const CREATE_HEADER: u8 = 26;
    pub const OPEN_CHILDREN: u8 = 27;
    pub const OPEN_TREES: u8 = 28;
    pub const OPEN_CPUS: u8 = 29;
    pub const ALL: std::ops::RangeInclusive<u8> = OWN..=OPEN_CPUS;
}

/// Numbers of the kinds of place.
pub mod kind {
    pub const OWN: u8 = 1;
    pub const NEAR: u8 = 2;
    pub const PARTIAL: u8 = 3;
    pub const FREE: u8 = 4;
    pub const ANY: u8 = 5;
    pub const STOLEN: u8 = 6;
}

/// The fields of a record; those that its stage does not use are 0. The finished record has stage 0.
#[derive(Clone, Copy, Debug, Default, PartialEq, Eq)]
pub struct Record {
    pub stage: u8,
    pub cpu: u8,
    pub order: u8,
    pub kind: u8,
    pub start: u8,
    pub child: u8,
    pub word: u8,
    pub tree: u16,
    pub base: u16,
    pub hand: u16,
    pub from: u8,
    pub number: u64,
}

/// The fields that a stage uses.
#[derive(Clone, Debug)]
pub struct Form {
    pub cpu: bool,
    pub order: bool,
    /// Whether the order is a run's, 0 to 6.
    pub run: bool,
    pub kinds: RangeInclusive<u8>,
    pub tree: bool,
    pub from: bool,
    pub hand: bool,
    pub start: bool,
    pub child: bool,
    pub word: bool,
    pub number: bool,
}

impl Form {
    /// Whether the stage may have an order: 0 to 6 or 9; 0 where it has none.
    pub fn has_order(&self, order: u8) -> bool {
        match order {
            0 => true,
            1..=6 => self.order,
            9 => self.order && !self.run,
            _ => false,
        }
    }

    /// The form of a stage; none for a number that is no stage.
    pub fn of(stage: u8) -> Option<Form> {
        use stage::*;
        let known = ALL.contains(&stage);
        known.then(|| Form {
            cpu: stage <= TO_TREE || matches!(stage, CREATE_CPUS | OPEN_CPUS),
            order: stage <= TO_TREE && stage != NO_ROOM,
            run: matches!(stage, WORD | GIVE_BACK | RAISE),
            kinds: kinds(stage),
            tree: matches!(stage, TAKE_COUNT..=LOOK_AGAIN | CREATE_TREES | OPEN_TREES),
            from: stage == STEAL,
            hand: matches!(
                stage,
                FILL_ENTRY | RETURN_HAND | UNRESERVE | WRITE | STEAL_COUNT
            ),
            start: matches!(stage, CHILD..=GIVE_BACK),
            child: matches!(stage, CHILD..=GIVE_BACK),
            word: stage == WORD,
            number: numbered(stage),
        })
    }
}

/// The kinds of place that a stage may stand at; 0 is none.
fn kinds(stage: u8) -> RangeInclusive<u8> {
    match stage {
        stage::RELEASE
        | stage::UNRESERVE
        | stage::CHILD
        | stage::WORD
        | stage::GIVE_BACK
        | stage::FAIL => kind::OWN..=kind::STOLEN,
        stage::TRY => kind::NEAR..=kind::ANY,
        stage::WRITE => kind::NEAR..=kind::STOLEN,
        stage::STEAL_COUNT => kind::STOLEN..=kind::STOLEN,
        _ => 0..=0,
    }
}

/// Whether a stage's second word is a number.
fn numbered(stage: u8) -> bool {
    use stage::*;
    matches!(
        stage,
        LAST | CLEAR..=TO_TREE | CREATE_WORDS | CREATE_CHILDREN | OPEN_CHILDREN
    )
}

impl Record {
    pub const FINISHED: Record = Record {
        stage: 0,
        cpu: 0,
        order: 0,
        kind: 0,
        start: 0,
        child: 0,
        word: 0,
        tree: 0,
        base: 0,
        hand: 0,
        from: 0,
        number: 0,
    };

    /// The record that two words say; none if they are no record.
    pub fn split(words: [u64; 2]) -> Option<Record> {
        let byte = |word: u64, shift: u32| (word >> shift) as u8;
        let half = |shift: u32| (words[1] >> shift) as u16;
        let mut record = Record {
            stage: byte(words[0], 56),
            cpu: byte(words[0], 48),
            order: byte(words[0], 40),
            kind: byte(words[0], 32),
            start: byte(words[0], 24),
            child: byte(words[0], 16),
            word: byte(words[0], 8),
            ..Record::FINISHED
        };
        if numbered(record.stage) {
            record.number = words[1];
        } else {
            record.tree = half(48);
            record.base = half(32);
            record.hand = half(16);
            record.from = byte(words[1], 8);
        }
        // The zero bits of both words are looked at by joining.
        let right = record.well_formed() && record.join() == words;
        right.then_some(record)
    }

    pub fn join(self) -> [u64; 2] {
        let first = [
            self.stage, self.cpu, self.order, self.kind, self.start, self.child, self.word, 0,
        ];
        let second = if numbered(self.stage) {
            self.number
        } else {
            u64::from(self.tree) << 48
                | u64::from(self.base) << 32
                | u64::from(self.hand) << 16
                | u64::from(self.from) << 8
        };
        [u64::from_be_bytes(first), second]
    }

    /// Whether the stage exists, every field that it does not use is 0, and every number but a run's first frame is below 2^32.
    fn well_formed(&self) -> bool {
        let Some(form) = Form::of(self.stage) else {
            return *self == Record::FINISHED;
        };
        let unless = |used: bool, value: u64| used || value == 0;
        let first_frame = self.stage <= stage::TO_TREE && self.order != 9;
        (first_frame || self.number < 1 << 32)
            && form.kinds.contains(&self.kind)
            && form.has_order(self.order)
            && unless(form.cpu, self.cpu.into())
            && unless(form.tree || self.kind != 0, self.tree.into())
            && unless(self.kind == kind::NEAR, self.base.into())
            && unless(form.from || self.kind == kind::STOLEN, self.from.into())
            && unless(form.hand, self.hand.into())
            && unless(form.start, self.start.into())
            && unless(form.child, self.child.into())
            && unless(form.word, self.word.into())
    }

    /// Frames of a block of the record's order.
    pub fn size(&self) -> usize {
        1 << self.order
    }

    /// The huge frame of the record's block.
    pub fn huge(&self) -> usize {
        match self.order {
            9 => self.number as usize,
            _ => self.number as usize / 512,
        }
    }
}
