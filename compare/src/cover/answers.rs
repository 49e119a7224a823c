//! Cases of any call: its answer, and what it was refused for.

use reference::layout::{Header, MAX_HUGE_FRAMES};
use reference::zone::{Zone, trees_for};

use crate::call::Call;
use crate::cover::Seen;
use crate::record::{Record, kind, stage};
use crate::translate::Shape;

pub fn cases(seen: &Seen) -> Vec<String> {
    let call = seen.call.name();
    let number = seen.outcome.number;
    let mut cases = Vec::new();
    if number == 8 {
        cases.push(format!("{call} answers 8: {}", length(seen)));
    } else {
        cases.push(format!("{call} answers {number}"));
    }
    if seen.call.fuel().is_some() {
        run(seen, &mut cases);
    }
    match (seen.call, number) {
        (_, 9) => cases.push(format!("9 by: {}", field(seen))),
        (_, 11) => cases.extend(bad_record(seen)),
        (Call::Open, 1) => {
            let clean = seen
                .header
                .is_some_and(|bits| Header::split(bits).marker == 2);
            cases.push(format!(
                "open begins: {}",
                if clean { "clean" } else { "running" }
            ));
        }
        (Call::Open, 12) => cases.push(format!("open 12: {}", damaged_child(seen))),
        (Call::Close | Call::Settled, 12) => cases.push(format!("close 12: {}", damaged(seen))),
        (Call::Close | Call::Settled, 13) => cases.push(format!("close 13: {}", unsettled(seen))),
        _ => {}
    }
    cases
}

/// Which length was wrong.
fn length(seen: &Seen) -> &'static str {
    match wrong_lengths(seen)[..] {
        [one] => one,
        _ => "several",
    }
}

/// The lengths that are wrong, by the call's n or the header's; those of words, children and trees only where there is one.
pub fn wrong_lengths(seen: &Seen) -> Vec<&'static str> {
    let tables = &seen.pair.library;
    let n = match seen.call {
        Call::Create { n } | Call::CreateStep { n } | Call::CreateRun { n, .. } => Some(n),
        _ => well_formed(seen).map(|header| header.n.into()),
    };
    let mut wrong = Vec::new();
    let mut check = |right: bool, name| {
        if !right {
            wrong.push(name);
        }
    };
    check(tables.header.len() == 1, "header");
    if let Some(n @ 1..=MAX_HUGE_FRAMES) = n {
        let n = n as usize;
        check(tables.words.len() == 8 * n, "words");
        check(tables.children.len() == n, "children");
        check(tables.trees.len() == trees_for(n), "trees");
    }
    check(!tables.cpus.is_empty(), "cpus none");
    check(tables.cpus.len() <= 64, "cpus too many");
    check(seen.words.len() == 2 || !seen.call.has_record(), "record");
    wrong
}

/// The header before the call, if it is a single one and well-formed.
fn well_formed(seen: &Seen) -> Option<Header> {
    let single = seen.pair.library.header.len() == 1;
    let header = seen.header.filter(|_| single).map(Header::split);
    header.filter(|header| header.well_formed())
}

fn run(seen: &Seen, cases: &mut Vec<String>) {
    let call = seen.call.name();
    let fuel = seen.call.fuel().unwrap_or(0);
    let named = match fuel {
        0..=2 => fuel.to_string(),
        _ => String::from("more"),
    };
    cases.push(format!("{call} with fuel: {named}"));
    let number = seen.outcome.number;
    if number == 1 && !(seen.call.is_one() && fuel == 0) {
        cases.push(String::from("runs: out of fuel"));
    }
    if matches!(number, 0 | 2) {
        cases.push(String::from("runs: ended"));
    }
    if seen.call.is_one() {
        cases.extend(one_call(seen));
    } else if fuel == 0 {
        cases.extend(without_fuel(seen));
    }
}

/// The record that a run with fuel 0 made its one step of.
fn without_fuel(seen: &Seen) -> Option<String> {
    let record = match (seen.outcome.number, seen.record) {
        (0 | 1 | 2 | 6 | 12, _) => "good record",
        (11, None) => "no record",
        (11, Some(Record { stage: 0, .. })) => "finished",
        (11, _) => "bad record",
        _ => return None,
    };
    Some(format!("{} with fuel 0: {record}", seen.call.name()))
}

/// How a get or put begun and run in one call ended.
fn one_call(seen: &Seen) -> Option<String> {
    let ended = match (seen.outcome.number, seen.outcome.steps) {
        (1, Some(0)) => return None,
        (1, _) => "out of fuel",
        (0 | 2, _) => "ended",
        (_, Some(0)) => "refused at once",
        (_, Some(1)) => "refused by its first step",
        _ => "refused later",
    };
    Some(format!("{}: {ended}", seen.call.name()))
}

/// The header's first field that is wrong.
fn field(seen: &Seen) -> &'static str {
    let header = Header::split(seen.header.unwrap_or(0));
    let good = Header::running(1);
    if header.identifier != good.identifier {
        "identifier"
    } else if header.format != good.format {
        "format"
    } else if !matches!(header.marker, 1 | 2) {
        "marker"
    } else if !(1..=65_536).contains(&header.n) {
        "n"
    } else {
        "zero bits"
    }
}

/// What a record was refused for.
fn bad_record(seen: &Seen) -> Option<String> {
    let call = match seen.call {
        Call::CreateStep { .. } => "create_step",
        Call::OpenStep => "open_step",
        Call::Step => "step",
        _ => return None,
    };
    let Some(record) = seen.record else {
        return Some(format!("11 at {call}: no record"));
    };
    let fits = match record.stage {
        0 => return Some(format!("11 at {call}: finished")),
        stage::CREATE_WORDS..=stage::CREATE_HEADER => "create_step",
        stage::OPEN_CHILDREN..=stage::OPEN_CPUS => "open_step",
        _ => "step",
    };
    if fits != call {
        return Some(format!("11 at {call}: another operation"));
    }
    let shape = seen.pair.model.shape();
    Some(match record.stage {
        stage::OWN..=stage::NO_ROOM => format!("11 by a get: {}", get_range(&record, shape)),
        stage::CLEAR..=stage::TO_TREE => format!("11 by a put: {}", put_range(&record, shape)),
        _ => part_range(&record),
    })
}

fn put_range(record: &Record, shape: Shape) -> &'static str {
    if usize::from(record.cpu) >= shape.cpus {
        "cpu"
    } else if record.huge() >= shape.n {
        "frame"
    } else {
        "misaligned"
    }
}

fn get_range(record: &Record, shape: Shape) -> &'static str {
    let (cpu, tree) = (usize::from(record.cpu), usize::from(record.tree));
    let (base, from) = (usize::from(record.base), usize::from(record.from));
    let width = shape.width(tree);
    let stolen = record.kind == kind::STOLEN || record.stage == stage::STEAL;
    let searching = matches!(record.stage, stage::CHILD..=stage::GIVE_BACK);
    if cpu >= shape.cpus {
        "cpu"
    } else if tree >= shape.trees() {
        "tree"
    } else if record.kind == kind::NEAR
        && (base >= shape.trees() || base == tree || base / 32 != tree / 32)
    {
        "near tree"
    } else if stolen && (from >= shape.cpus || from == cpu) {
        "stolen cpu"
    } else if searching && (usize::from(record.start.max(record.child)) >= width) {
        "child"
    } else if record.word >= 8 {
        "word"
    } else if usize::from(record.hand) > 512 * width {
        "hand"
    } else if record.stage == stage::LAST && record.huge() < shape.n {
        "misaligned"
    } else {
        "frame"
    }
}

fn part_range(record: &Record) -> String {
    let part = match record.stage {
        stage::CREATE_WORDS => "a create: words",
        stage::CREATE_CHILDREN => "a create: children",
        stage::CREATE_TREES => "a create: trees",
        stage::CREATE_CPUS => "a create: cpus",
        stage::OPEN_CHILDREN => "an open: children",
        stage::OPEN_TREES => "an open: trees",
        _ => "an open: cpus",
    };
    format!("11 by {part}")
}

fn damaged_child(seen: &Seen) -> &'static str {
    let zone = &seen.pair.model.zone;
    if (0..zone.children.len()).any(|huge| zone.child(huge).is_err()) {
        "malformed child"
    } else {
        "bits under a taken child"
    }
}

/// Whether a child with a set stands over set bits.
fn over_bits(zone: &Zone) -> bool {
    (0..zone.children.len())
        .any(|huge| zone.children[huge].a && zone.field(huge).iter().any(|word| word.0 != 0))
}

fn damaged(seen: &Seen) -> &'static str {
    let zone = &seen.pair.model.zone;
    if (0..zone.trees.len()).any(|tree| zone.tree(tree).is_err()) {
        "malformed tree"
    } else if (0..zone.cpus.len()).any(|cpu| zone.cpu(cpu).is_err()) {
        "malformed cpu"
    } else if over_bits(zone) && (0..zone.children.len()).all(|huge| zone.child(huge).is_ok()) {
        "bits under a taken child"
    } else {
        "malformed child"
    }
}

fn unsettled(seen: &Seen) -> &'static str {
    let zone = &seen.pair.model.zone;
    let bits = (0..zone.children.len()).any(|huge| {
        !zone.children[huge].a && usize::from(zone.children[huge].count) != zone.zeros(huge)
    });
    if bits {
        return "zero bits";
    }
    let above = (0..zone.trees.len()).any(|tree| {
        let held: usize = (0..zone.cpus.len())
            .filter_map(|cpu| zone.cpu(cpu).ok().flatten())
            .filter(|held| held.tree == tree)
            .map(|held| held.count)
            .sum();
        held + usize::from(zone.trees[tree].count) > zone.capacity(tree)
    });
    if above {
        "sum above the capacity"
    } else {
        "sum"
    }
}
