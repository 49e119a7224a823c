//! The wrapper's tests, against what document 01 says.

mod answers;
mod common;
mod cuts;
mod extremes;
mod lengths;
mod one_call;
mod records;
mod runs;
mod sessions;
