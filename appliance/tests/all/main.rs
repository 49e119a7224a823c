//! Tests of the checks, of the journal and of both commands.

mod accounting;
mod changes;
mod checks;
mod commands;
mod cutting;
mod faults;
mod journals;
mod junk;
