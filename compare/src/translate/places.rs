//! The places of a get, and how the reference numbers them.

use crate::record::{Record, kind, stage};
use crate::translate::{BLOCK, Shape};

/// Where a get stands: before the passes, at a place of them, or after the last.
#[derive(Clone, Copy, Debug, PartialEq, Eq)]
pub enum Spot {
    Own(usize),
    Near { tree: usize, base: usize },
    Pass { kind: u8, tree: usize },
    Cpu(usize),
    End,
}

/// The reference's `own`, and the number of the place after a spot.
pub type Numbered = (Option<usize>, usize);

impl Shape {
    /// How the reference numbers a spot; none for one that does not exist.
    pub fn number(&self, cpu: usize, spot: Spot) -> Option<Numbered> {
        let trees = self.trees();
        match spot {
            Spot::Own(tree) => Some((Some(tree), 0)),
            Spot::Near { tree, base } => {
                let near = tree != base && tree / BLOCK == base / BLOCK;
                let number = tree % BLOCK - usize::from(tree > base && near);
                (near && tree < trees && base < trees).then_some((Some(base), number + 1))
            }
            Spot::Pass { kind, tree } => {
                let pass = usize::from(kind - kind::PARTIAL);
                (tree < trees).then_some((None, pass * trees + tree + 1))
            }
            Spot::Cpu(from) => {
                let number = from - usize::from(from > cpu);
                (from < self.cpus && from != cpu).then_some((None, 3 * trees + number + 1))
            }
            Spot::End => Some((None, 3 * trees + self.cpus.saturating_sub(1) + 1)),
        }
    }

    /// The spot of a place's number.
    pub fn spot(&self, cpu: usize, own: Option<usize>, mut number: usize) -> Spot {
        if let Some(base) = own {
            if number < self.near(base) {
                let tree = base / BLOCK * BLOCK + number;
                let tree = tree + usize::from(tree >= base);
                return Spot::Near { tree, base };
            }
            number -= self.near(base);
        }
        for kind in [kind::PARTIAL, kind::FREE, kind::ANY] {
            if number < self.trees() {
                return Spot::Pass { kind, tree: number };
            }
            number -= self.trees();
        }
        if number + 1 >= self.cpus {
            return Spot::End;
        }
        Spot::Cpu(number + usize::from(number >= cpu))
    }
}

/// The spot that a record's place names.
pub fn spot_of(record: &Record) -> Spot {
    let tree = record.tree.into();
    match (record.stage, record.kind) {
        (stage::STEAL, _) | (_, kind::STOLEN) => Spot::Cpu(record.from.into()),
        (stage::NO_ROOM, _) => Spot::End,
        (_, kind::NEAR) => Spot::Near {
            tree,
            base: record.base.into(),
        },
        (_, kind @ kind::PARTIAL..=kind::ANY) => Spot::Pass { kind, tree },
        _ => Spot::Own(tree),
    }
}
