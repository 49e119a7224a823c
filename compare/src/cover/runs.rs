//! Cases by the order of the block.

use reference::layout::{Run, Word};
use reference::operation::Order;

use crate::call::Call;
use crate::cover::Seen;
use crate::record::{Form, Record, stage};

/// What a step may come to for every order from 0 to 6.
pub const EACH: [(&str, &str); 13] = [
    ("own", "claimed, short"),
    ("any", "taken, passed by count"),
    ("write", "written, 12 short hand"),
    ("steal count", "enough, short"),
    ("child", "claimed, passed"),
    ("word", "found, full"),
    ("give back", "next child, last child, 12 full, 12 taken"),
    ("last", "kept, not kept"),
    ("fail", "returned"),
    ("clear", "cleared, all clear"),
    ("raise", "raised, 12 full, 12 taken"),
    ("to entry", "held, not held"),
    ("to tree", "added"),
];

/// What a step may come to for the orders from 1 to 6 besides.
pub const LONGER: [(&str, &str); 3] = [
    ("child", "passed with a lower count"),
    ("word", "fragmented"),
    ("clear", "some clear"),
];

/// Cases of a beginning's order, and of a record that has none.
pub fn cases(seen: &Seen) -> Vec<String> {
    let call = seen.call.name();
    let begun = seen.outcome.number == 1 || seen.outcome.steps.is_some_and(|steps| steps > 0);
    let beginning = seen.call.beginning().unwrap_or(seen.call);
    let case = match (beginning, seen.outcome.number) {
        (Call::Get { order, .. } | Call::Put { order, .. }, _) if begun => {
            Some(format!("{call} begun: order {order}"))
        }
        (Call::Get { order, .. } | Call::Put { order, .. }, 3) => {
            Some(format!("{call} 3: {}", unknown(order)))
        }
        (Call::Put { order, .. }, 5) => Some(format!("{call} 5: order {order}")),
        (Call::Step | Call::Run { .. }, 11) => forged(seen),
        _ => None,
    };
    case.into_iter().collect()
}

fn unknown(order: u64) -> String {
    match order {
        0..=10 => format!("order {order}"),
        _ => String::from("order above 10"),
    }
}

/// Words that are no record for their order alone.
fn forged(seen: &Seen) -> Option<String> {
    let &[first, second] = seen.words else {
        return None;
    };
    let order = (first >> 40) as u8;
    let without = first & !(0xFF << 40);
    let alone = seen.record.is_none() && Record::split([without, second]).is_some();
    let run = Form::of((first >> 56) as u8).is_some_and(|form| form.run);
    let named = match order {
        7 | 8 => unknown(order.into()),
        9 if run => String::from("order 9 at a word's stage"),
        0..=9 => String::from("order where there is none"),
        _ => String::from("order above 9"),
    };
    alone.then(|| format!("no record: {named}"))
}

/// The case of a step that is counted for each order by itself, if it is.
pub fn by_order(seen: &Seen, record: &Record, name: &str, outcome: &str) -> Option<String> {
    let run = record.order <= 6 && matches!(record.stage, stage::OWN..=stage::TO_TREE);
    let outcome = match (record.stage, outcome) {
        (stage::CHILD, "passed" | "passed last") => passed(seen, record),
        (stage::WORD, "found") => found(seen, record),
        (stage::WORD, _) => without(seen, record),
        (stage::CLEAR, "not taken") => not_taken(seen, record),
        _ => outcome,
    };
    let counted = |(what, outcomes): &(&str, &str)| {
        *what == name && outcomes.split(", ").any(|counted| counted == outcome)
    };
    let in_table = EACH.iter().chain(&LONGER).any(counted) || outcome == PAST_A_HOLE;
    (run && in_table).then(|| format!("order {} {name}: {outcome}", record.order))
}

/// A run found above zero bits that make none; orders 1 to 5.
pub const PAST_A_HOLE: &str = "found past a hole";

/// The child that a search passed, as it still is.
fn passed(seen: &Seen, record: &Record) -> &'static str {
    let huge = 32 * usize::from(record.tree) + usize::from(record.child);
    let child = seen.pair.model.zone.children[huge];
    if !child.a && child.count > 0 {
        "passed with a lower count"
    } else {
        "passed"
    }
}

/// The word that a search stands at, as the step left it.
fn word(seen: &Seen, record: &Record) -> Word {
    let huge = 32 * usize::from(record.tree) + usize::from(record.child);
    seen.pair.model.zone.words[8 * huge + usize::from(record.word)]
}

fn found(seen: &Seen, record: &Record) -> &'static str {
    let first = seen.next.map_or(0, |next| next.number % 64);
    let holes = (0..first as usize).any(|bit| !word(seen, record).taken(bit));
    if holes && record.order > 0 {
        PAST_A_HOLE
    } else {
        "found"
    }
}

fn without(seen: &Seen, record: &Record) -> &'static str {
    if word(seen, record) == Word(u64::MAX) {
        "full"
    } else {
        "fragmented"
    }
}

fn not_taken(seen: &Seen, record: &Record) -> &'static str {
    let run = Run {
        bit: record.number as usize % 64,
        size: record.size(),
    };
    let word = seen.pair.model.zone.words[record.number as usize / 64];
    if word.free(run) {
        "all clear"
    } else {
        "some clear"
    }
}

/// The names of the cases by order.
pub fn names() -> Vec<String> {
    let mut names = Vec::new();
    for order in 0..=6 {
        let longer = LONGER.iter().filter(|_| order > 0);
        for (what, outcomes) in EACH.iter().chain(longer) {
            for outcome in outcomes.split(", ") {
                names.push(format!("order {order} {what}: {outcome}"));
            }
        }
        if (1..=5).contains(&order) {
            names.push(format!("order {order} word: {PAST_A_HOLE}"));
        }
        if order > 0 {
            names.push(format!("fragmented: order {order} gives its count back"));
            names.push(format!("put 5: order {order}"));
            names.push(format!("put_run 5: order {order}"));
        }
    }
    for order in (0..=9).filter(|&order| Order::from_number(order).is_some()) {
        for call in ["get", "put", "get_run", "put_run"] {
            names.push(format!("{call} begun: order {order}"));
        }
    }
    names
}
