//! The table of cases.

use crate::cover::runs;

const TABLES: &str = "header, words, children, trees, cpus none, cpus too many";

/// The numbers that each call may answer.
const ANSWERS: [(&str, &str); 14] = [
    ("create", "1, 14"),
    ("create_step", "0, 1, 11, 14"),
    ("create_run", "0, 1, 11, 14"),
    ("open", "1, 9, 12"),
    ("open_step", "0, 1, 9, 10, 11, 12"),
    ("open_run", "0, 1, 9, 10, 11, 12"),
    ("close", "0, 9, 10, 12, 13"),
    ("settled", "0, 9, 10, 12, 13"),
    ("get", "1, 3, 7, 9, 10"),
    ("put", "1, 3, 4, 5, 7, 9, 10"),
    ("step", "0, 1, 2, 6, 9, 10, 11, 12"),
    ("run", "0, 1, 2, 6, 9, 10, 11, 12"),
    ("get_run", "0, 1, 2, 3, 7, 9, 10, 12"),
    ("put_run", "0, 1, 3, 4, 5, 6, 7, 9, 10, 12"),
];

/// What each kind of step, entry and scene may come to.
const CASES: [(&str, &str); 89] = [
    ("own", "absent, claimed, short, 12 malformed"),
    ("take count", "taken, 12 malformed"),
    ("fill entry", "held, gone, 12 malformed, 12 sum"),
    ("return hand", "returned, 12 malformed, 12 sum"),
    ("look again", "claimed, released, gone, 12 malformed"),
    ("release", "held, gone, 12 malformed"),
    (
        "unreserve",
        "after a release, after a short steal, 12 malformed, 12 sum",
    ),
    ("near", "taken, passed by r, passed by class, 12 malformed"),
    (
        "partial",
        "taken, passed by r, passed by class, 12 malformed",
    ),
    ("free", "taken, passed by r, passed by class, 12 malformed"),
    ("any", "taken, passed by r, passed by count, 12 malformed"),
    ("write", "written, 12 malformed, 12 short hand"),
    ("steal", "absent, present, 12 malformed"),
    ("steal count", "enough, short, 12 malformed, 12 sum"),
    ("child", "claimed, passed, passed last, 12 malformed"),
    ("huge child", "taken, passed, passed last, 12 malformed"),
    ("search", "goes round"),
    ("word", "found, full, eighth full"),
    (
        "give back",
        "next child, last child, 12 malformed, 12 full, 12 taken",
    ),
    ("last", "kept, not kept, 12 malformed"),
    ("huge last", "kept, not kept, 12 malformed"),
    ("fail", "returned, 12 malformed, 12 sum"),
    ("no room", "answered"),
    ("clear", "cleared, not taken"),
    ("huge clear", "cleared, not taken, 12 malformed"),
    ("raise", "raised, 12 malformed, 12 full, 12 taken"),
    ("to entry", "held, not held, 12 malformed, 12 sum"),
    ("to tree", "added, 12 malformed, 12 sum"),
    ("release at", "own, near, partial, free, any, stolen"),
    ("unreserve at", "own, near, partial, free, any, stolen"),
    ("write at", "near, partial, free, any, stolen"),
    ("child at", "own, near, partial, free, any, stolen"),
    ("word at", "own, near, partial, free, any, stolen"),
    ("give back at", "own, near, partial, free, any, stolen"),
    ("fail at", "own, near, partial, free, any, stolen"),
    ("goes on at", "near, partial, free, any, steal, no room"),
    ("near goes on at", "near, partial"),
    ("create words", "next, last"),
    ("create children", "next, last"),
    ("create trees", "next, last"),
    ("create cpus", "next, last"),
    ("create header", "done"),
    ("open begins", "running, clean"),
    ("open children", "counted, kept, 12 malformed"),
    ("open trees", "summed, 12 malformed"),
    ("open cpus", "next, done"),
    ("open 12", "malformed child, bits under a taken child"),
    (
        "close 12",
        "malformed child, bits under a taken child, malformed tree, malformed cpu",
    ),
    ("close 13", "zero bits, sum, sum above the capacity"),
    (
        "order",
        "3 before 4, 4 before 5, 7 before 3, 7 before 4, 7 before 5",
    ),
    (
        "order",
        "8 before 7, 8 before 9, 8 before 11, 8 before 12, 9 before 7, 9 before 8, 9 before 11",
    ),
    (
        "order",
        "10 before 7, 10 before 8, 10 before 11, 10 before 12, 11 before 12",
    ),
    (
        "order",
        "12 before 6, 12 before 13, 14 before 8, 14 before 11",
    ),
    (
        "order in one call",
        "3 before 4, 4 before 5, 7 before 3, 7 before 4, 7 before 5, 8 before 7, 8 before 9",
    ),
    (
        "order in one call",
        "9 before 7, 9 before 8, 10 before 7, 10 before 8",
    ),
    ("9 by", "identifier, format, marker, n, zero bits"),
    ("malformed child", "count, zero bits, taken with a count"),
    (
        "malformed cpu",
        "absent with bits, zero bits, tree, start child, count",
    ),
    (
        "11 by a get",
        "cpu, tree, near tree, stolen cpu, child, word, hand, frame, misaligned",
    ),
    ("11 by a put", "cpu, frame, misaligned"),
    ("11 by a create", "words, children, trees, cpus"),
    ("11 by an open", "children, trees, cpus"),
    ("11 at step", "finished, no record, another operation"),
    (
        "11 at create_step",
        "finished, no record, another operation",
    ),
    ("11 at open_step", "finished, no record, another operation"),
    ("run with fuel", "0, 1, 2, more"),
    ("create_run with fuel", "0, 1, 2, more"),
    ("open_run with fuel", "0, 1, 2, more"),
    ("get_run with fuel", "0, 1, 2, more"),
    ("put_run with fuel", "0, 1, 2, more"),
    ("runs", "out of fuel, ended"),
    (
        "run with fuel 0",
        "good record, bad record, finished, no record",
    ),
    (
        "create_run with fuel 0",
        "good record, bad record, finished, no record",
    ),
    (
        "open_run with fuel 0",
        "good record, bad record, finished, no record",
    ),
    (
        "cut",
        "during gets and puts, inside an open, inside a create",
    ),
    (
        "cut",
        "after a get's lowered count, after a get's set bit, after a put's clearing store",
    ),
    (
        "after a steal",
        "hand returned, claim returned to the tree, release gone, start child not kept",
    ),
    ("damage", "under a hand"),
    (
        "between",
        "huge get passes a claimed child, one run for two gets",
    ),
    (
        "get_run",
        "refused at once, refused by its first step, refused later, out of fuel, ended",
    ),
    (
        "put_run",
        "refused at once, refused by its first step, refused later, out of fuel, ended",
    ),
    ("get 3", "order 7, order 8, order 10, order above 10"),
    ("put 3", "order 7, order 8, order 10, order above 10"),
    ("put 5", "order 9"),
    ("get_run 3", "order 7, order 8, order 10, order above 10"),
    ("put_run 3", "order 7, order 8, order 10, order above 10"),
    ("put_run 5", "order 9"),
    (
        "no record",
        "order 7, order 8, order above 9, order 9 at a word's stage, order where there is none",
    ),
    ("parts", "put by halves"),
];

/// Every case's name.
pub fn all() -> Vec<String> {
    let mut names = Vec::new();
    for (call, numbers) in ANSWERS {
        for number in numbers.split(", ") {
            names.push(format!("{call} answers {number}"));
        }
        let record = !matches!(call, "close" | "settled");
        for table in TABLES.split(", ").chain(record.then_some("record")) {
            names.push(format!("{call} answers 8: {table}"));
        }
        names.push(format!("{call} answers 8: several"));
    }
    for (what, outcomes) in CASES {
        for outcome in outcomes.split(", ") {
            names.push(format!("{what}: {outcome}"));
        }
    }
    names.extend(runs::names());
    names
}
