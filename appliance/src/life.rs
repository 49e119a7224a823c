//! Create, open and close by single calls.

use lovarntek::calls::Tables;

/// The answer of an operation that goes on.
pub const UNDER_WAY: u64 = 1;

/// Creates a zone, step by step.
pub fn create(tables: &mut Tables<'_>, n: u64) -> Result<(), String> {
    let mut record = [0; 2];
    let mut answer = tables.create(&mut record, n).number;
    for _ in 0..stores(tables) + tables.words.len() as u64 {
        if answer != UNDER_WAY {
            break;
        }
        answer = tables.create_step(&mut record, n).number;
    }
    done("create", answer)
}

/// Opens a zone, step by step. After each store, `after` is given its number, from 1, and the tables.
pub fn open(
    tables: &mut Tables<'_>,
    mut after: impl FnMut(u64, &Tables<'_>) -> Result<(), String>,
) -> Result<(), String> {
    let mut record = [0; 2];
    let mut answer = tables.open(&mut record).number;
    for store in 1..=stores(tables) {
        if answer > UNDER_WAY {
            break;
        }
        after(store, tables)?;
        if answer != UNDER_WAY {
            break;
        }
        answer = tables.open_step(&mut record).number;
    }
    done("open", answer)
}

/// Opens a zone, step by step, to its end.
pub fn open_all(tables: &mut Tables<'_>) -> Result<(), String> {
    open(tables, |_, _| Ok(()))
}

/// Closes a zone, which must be done.
pub fn close(tables: &mut Tables<'_>) -> Result<(), String> {
    done("close", tables.close().number)
}

/// Asks whether a zone is settled, which must be so.
pub fn settled(tables: &mut Tables<'_>) -> Result<(), String> {
    done("settled", tables.settled().number)
}

/// The most stores of an open: header, children, trees and CPUs.
pub fn stores(tables: &Tables<'_>) -> u64 {
    (1 + tables.children.len() + tables.trees.len() + tables.cpus.len()) as u64
}

/// An answer that must be 0.
fn done(what: &str, number: u64) -> Result<(), String> {
    match number {
        0 => Ok(()),
        _ => Err(format!("{what} answers {number}, expected 0")),
    }
}
