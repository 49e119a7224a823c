//! Benchmarks of the library: beside a plain Rust engine of the same steps and checks, the independent program, and malloc.

pub mod chart;
pub mod count;
pub mod engines;
pub mod heap;
pub mod memory;
pub mod open;
pub mod plain;
pub mod run;
pub mod sizes;
pub mod stages;
pub mod table;
pub mod timing;
pub mod verdict;
pub mod workload;
