//! The reference's tests.

mod common;
mod comparisons;
mod interleavings;
mod layouts;
mod refusals;
mod rules;
mod runs;
mod sessions;
