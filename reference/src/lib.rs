//! A plain second implementation of the page-frame allocator.
//!
//! Tables are decoded into structs with named fields, and every operation is
//! a value that is moved on by single steps of at most one store each.

pub mod answer;
pub mod compare;
pub mod fault;
pub mod get;
pub mod layout;
pub mod lifecycle;
pub mod operation;
pub mod packed;
pub mod put;
pub mod rng;
pub mod script;
pub mod session;
pub mod zone;
