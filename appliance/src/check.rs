//! What must hold of the tables, by the owners' lists alone.

use lovarntek::calls::Tables;

use crate::frames::Taken;
use crate::layout;

/// The check of a zone that was opened and not used since: every count is that of the tables below, no tree is reserved, and no CPU is present.
pub fn opened(tables: &Tables<'_>, expected: &Taken) -> Result<(), String> {
    header(tables, layout::running(tables.children.len() as u64))?;
    taken(tables, expected)?;
    children(tables)?;
    trees(tables)?;
    match tables.cpus.iter().position(|&entry| entry != 0) {
        None => Ok(()),
        Some(cpu) => Err(format!(
            "CPU {cpu}: {:#018x}, expected absent",
            tables.cpus[cpu]
        )),
    }
}

/// The check of an open zone with nothing under way: the counters of each tree add up to the free frames that the history leaves.
pub fn at_rest(tables: &Tables<'_>, expected: &Taken) -> Result<(), String> {
    header(tables, layout::running(tables.children.len() as u64))?;
    taken(tables, expected)?;
    children(tables)?;
    for (tree, &entry) in tables.trees.iter().enumerate() {
        let range = layout::of_tree(tree, tables.children.len());
        let free = range.len() as u64 * 512 - expected.frames.count(range);
        let entries = tables.cpus.iter().filter_map(|&entry| layout::cpu(entry));
        let reserved: u64 = entries
            .filter(|&(held, _)| held == tree)
            .map(|(_, count)| count)
            .sum();
        equal(
            || format!("tree {tree}: its counters"),
            layout::tree_count(entry) + reserved,
            free,
        )?;
    }
    Ok(())
}

/// The check of the header.
pub fn header(tables: &Tables<'_>, expected: u64) -> Result<(), String> {
    match tables.header[0] {
        found if found == expected => Ok(()),
        found => Err(format!("header: {found:#018x}, expected {expected:#018x}")),
    }
}

/// The check of the taken frames, which must be those of the owners' lists, each huge block as one child.
pub fn taken(tables: &Tables<'_>, expected: &Taken) -> Result<(), String> {
    let found = Taken::found(tables);
    if found == *expected {
        return Ok(());
    }
    if let Some(frame) = expected.frames.without(&found.frames).first() {
        return Err(format!("frame {frame}: free, expected taken"));
    }
    if let Some(frame) = found.frames.without(&expected.frames).first() {
        return Err(format!("frame {frame}: taken, expected free"));
    }
    let mut pairs = found.huge.iter().zip(&expected.huge);
    let child = pairs.position(|(found, expected)| found != expected);
    let child = child.unwrap_or(found.huge.len());
    Err(format!(
        "child {child}: whether it is taken as one differs from the owners' lists"
    ))
}

/// The check of the children: a count is that of the zero bits, and below a flag there is none set.
fn children(tables: &Tables<'_>) -> Result<(), String> {
    for (child, (&entry, field)) in tables
        .children
        .iter()
        .zip(tables.words.chunks(8))
        .enumerate()
    {
        let zeros: u64 = field.iter().map(|word| u64::from(word.count_zeros())).sum();
        if layout::flagged(entry) {
            equal(
                || format!("child {child}: zero bits below its flag"),
                zeros,
                512,
            )?;
            equal(
                || format!("child {child}: its entry"),
                entry.into(),
                1 << 15,
            )?;
        } else {
            equal(|| format!("child {child}: its entry"), entry.into(), zeros)?;
        }
    }
    Ok(())
}

/// The check of the trees: the count is the children's sum, and the flag is clear.
fn trees(tables: &Tables<'_>) -> Result<(), String> {
    for (tree, &entry) in tables.trees.iter().enumerate() {
        let children = &tables.children[layout::of_tree(tree, tables.children.len())];
        let sum: u64 = children.iter().map(|&child| u64::from(child & 0x3FF)).sum();
        equal(|| format!("tree {tree}: its entry"), entry.into(), sum)?;
    }
    Ok(())
}

/// Two numbers that must be equal.
fn equal(what: impl Fn() -> String, found: u64, expected: u64) -> Result<(), String> {
    if found == expected {
        return Ok(());
    }
    Err(format!("{}: {found}, expected {expected}", what()))
}
