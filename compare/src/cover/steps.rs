//! Cases of a single step, by its stage and what it came to.

use reference::layout::{Child, CpuEntry};
use reference::zone::Zone;

use crate::call::Call;
use crate::cover::{Seen, runs};
use crate::record::{Record, kind, stage};

const PLACES: [&str; 7] = ["", "own", "near", "partial", "free", "any", "stolen"];

pub fn cases(seen: &Seen) -> Vec<String> {
    let made = matches!(seen.outcome.number, 0..=2 | 6 | 12);
    let step = matches!(
        seen.call,
        Call::Step | Call::CreateStep { .. } | Call::OpenStep
    );
    let Some(record) = seen.record.filter(|_| made && step) else {
        return Vec::new();
    };
    let next = seen.next.unwrap_or(Record::FINISHED);
    let mut cases = Vec::new();
    let outcome = match seen.outcome.number {
        12 => damaged(seen, &record, &mut cases),
        _ => outcome(seen, &record, &next),
    };
    cases.push(format!("{}: {outcome}", name(&record)));
    cases.extend(runs::by_order(seen, &record, name(&record), outcome));
    if at_place(record.stage) {
        let place = PLACES[usize::from(record.kind)];
        cases.push(format!("{} at: {place}", name_of(record.stage)));
    }
    goes_on(&record, &next, &mut cases);
    cases
}

fn at_place(number: u8) -> bool {
    matches!(
        number,
        stage::RELEASE
            | stage::UNRESERVE
            | stage::WRITE
            | stage::CHILD
            | stage::WORD
            | stage::GIVE_BACK
            | stage::FAIL
    )
}

fn name_of(number: u8) -> &'static str {
    match number {
        stage::OWN => "own",
        stage::TAKE_COUNT => "take count",
        stage::FILL_ENTRY => "fill entry",
        stage::RETURN_HAND => "return hand",
        stage::LOOK_AGAIN => "look again",
        stage::RELEASE => "release",
        stage::UNRESERVE => "unreserve",
        stage::WRITE => "write",
        stage::STEAL => "steal",
        stage::STEAL_COUNT => "steal count",
        stage::CHILD => "child",
        stage::WORD => "word",
        stage::GIVE_BACK => "give back",
        stage::LAST => "last",
        stage::FAIL => "fail",
        stage::NO_ROOM => "no room",
        stage::CLEAR => "clear",
        stage::RAISE => "raise",
        stage::TO_ENTRY => "to entry",
        stage::TO_TREE => "to tree",
        stage::CREATE_WORDS => "create words",
        stage::CREATE_CHILDREN => "create children",
        stage::CREATE_TREES => "create trees",
        stage::CREATE_CPUS => "create cpus",
        stage::CREATE_HEADER => "create header",
        stage::OPEN_CHILDREN => "open children",
        stage::OPEN_TREES => "open trees",
        _ => "open cpus",
    }
}

fn name(record: &Record) -> &'static str {
    match (record.stage, record.order) {
        (stage::TRY, _) => PLACES[usize::from(record.kind)],
        (stage::CHILD, 9) => "huge child",
        (stage::LAST, 9) => "huge last",
        (stage::CLEAR, 9) => "huge clear",
        (number, _) => name_of(number),
    }
}

/// What a step that was not refused with 12 came to.
fn outcome(seen: &Seen, record: &Record, next: &Record) -> &'static str {
    let choose = |to: u8, then: &'static str, or: &'static str| {
        if next.stage == to { then } else { or }
    };
    match record.stage {
        stage::OWN if next.stage == stage::TAKE_COUNT => "short",
        stage::OWN => choose(stage::CHILD, "claimed", "absent"),
        stage::TAKE_COUNT => "taken",
        stage::FILL_ENTRY => choose(stage::LOOK_AGAIN, "held", "gone"),
        stage::RETURN_HAND | stage::FAIL => "returned",
        stage::LOOK_AGAIN if next.stage == stage::CHILD => "claimed",
        stage::LOOK_AGAIN => choose(stage::UNRESERVE, "released", "gone"),
        stage::RELEASE => choose(stage::UNRESERVE, "held", "gone"),
        stage::UNRESERVE if seen.came_from == stage::STEAL_COUNT => "after a short steal",
        stage::UNRESERVE => "after a release",
        stage::TRY => tried(seen, record, next),
        stage::WRITE => "written",
        stage::STEAL => choose(stage::STEAL_COUNT, "present", "absent"),
        stage::STEAL_COUNT => choose(stage::WRITE, "enough", "short"),
        stage::CHILD => searched(next),
        stage::WORD if next.stage == stage::LAST => "found",
        stage::WORD => choose(stage::WORD, "full", "eighth full"),
        stage::GIVE_BACK => choose(stage::CHILD, "next child", "last child"),
        stage::LAST => kept(seen, record),
        stage::NO_ROOM => "answered",
        stage::CLEAR if seen.outcome.number == 6 => "not taken",
        stage::CLEAR => "cleared",
        stage::RAISE => "raised",
        stage::TO_ENTRY => choose(stage::TO_TREE, "not held", "held"),
        stage::TO_TREE => "added",
        stage::CREATE_HEADER => "done",
        stage::CREATE_WORDS..=stage::CREATE_CPUS => choose(record.stage, "next", "last"),
        stage::OPEN_CHILDREN => recounted(seen, record),
        stage::OPEN_TREES => "summed",
        _ => choose(record.stage, "next", "done"),
    }
}

fn tried(seen: &Seen, record: &Record, next: &Record) -> &'static str {
    let entry = seen.tree.unwrap_or(0);
    if next.stage == stage::WRITE {
        "taken"
    } else if entry >= 0x8000 {
        "passed by r"
    } else if record.kind == kind::ANY {
        "passed by count"
    } else {
        "passed by class"
    }
}

fn searched(next: &Record) -> &'static str {
    match next.stage {
        stage::WORD => "claimed",
        stage::LAST => "taken",
        stage::CHILD => "passed",
        _ => "passed last",
    }
}

/// Whether the last step found its entry; it still holds the tree then.
fn kept(seen: &Seen, record: &Record) -> &'static str {
    let zone = &seen.pair.model.zone;
    match zone.cpu(record.cpu.into()) {
        Ok(Some(held)) if held.tree == record.huge() / 32 => "kept",
        _ => "not kept",
    }
}

fn recounted(seen: &Seen, record: &Record) -> &'static str {
    let child = seen.pair.model.zone.children[record.number as usize];
    if child.a { "kept" } else { "counted" }
}

/// The place that a get goes on at, and whether the search went round.
fn goes_on(record: &Record, next: &Record, cases: &mut Vec<String>) {
    let place = match next.stage {
        stage::TRY => PLACES[usize::from(next.kind)],
        stage::STEAL => "steal",
        stage::NO_ROOM => "no room",
        _ => {
            let round = record.stage == stage::CHILD && next.stage == stage::CHILD;
            if round && next.child < record.child {
                cases.push(String::from("search: goes round"));
            }
            return;
        }
    };
    cases.push(format!("goes on at: {place}"));
    if record.kind == kind::NEAR {
        cases.push(format!("near goes on at: {place}"));
    }
}

/// What a step was refused with 12 for: the entry that it read, or the one to be stored.
fn damaged(seen: &Seen, record: &Record, cases: &mut Vec<String>) -> &'static str {
    let zone = &seen.pair.model.zone;
    match record.stage {
        stage::STEAL => read_cpu(zone, record.from.into(), cases),
        stage::WRITE => match read_cpu(zone, record.cpu.into(), cases) {
            "12 sum" => "12 short hand",
            read => read,
        },
        stage::OWN
        | stage::FILL_ENTRY
        | stage::LOOK_AGAIN
        | stage::RELEASE
        | stage::LAST
        | stage::TO_ENTRY => read_cpu(zone, record.cpu.into(), cases),
        stage::CHILD | stage::GIVE_BACK => {
            let huge = 32 * usize::from(record.tree) + usize::from(record.child);
            read_child(zone, huge, cases)
        }
        stage::CLEAR | stage::RAISE => read_child(zone, record.huge(), cases),
        stage::OPEN_CHILDREN => read_child(zone, record.number as usize, cases),
        stage::OPEN_TREES => "12 malformed",
        stage::TO_TREE => read_tree(zone, record.huge() / 32),
        _ => read_tree(zone, record.tree.into()),
    }
}

fn read_tree(zone: &Zone, tree: usize) -> &'static str {
    match zone.tree(tree) {
        Ok(_) => "12 sum",
        Err(_) => "12 malformed",
    }
}

fn read_cpu(zone: &Zone, cpu: usize, cases: &mut Vec<String>) -> &'static str {
    if zone.cpu(cpu).is_ok() {
        return "12 sum";
    }
    let CpuEntry {
        present,
        tree,
        start,
        zero,
        ..
    } = zone.cpus[cpu];
    let kind = if !present {
        "absent with bits"
    } else if zero != 0 {
        "zero bits"
    } else if usize::from(tree) >= zone.trees.len() {
        "tree"
    } else if usize::from(start) >= zone.width(tree.into()) {
        "start child"
    } else {
        "count"
    };
    cases.push(format!("malformed cpu: {kind}"));
    "12 malformed"
}

fn read_child(zone: &Zone, huge: usize, cases: &mut Vec<String>) -> &'static str {
    let Child { a, zero, .. } = zone.children[huge];
    if zone.child(huge).is_ok() {
        return if a { "12 taken" } else { "12 full" };
    }
    let kind = if zero != 0 {
        "zero bits"
    } else if a {
        "taken with a count"
    } else {
        "count"
    };
    cases.push(format!("malformed child: {kind}"));
    "12 malformed"
}
