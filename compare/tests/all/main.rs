//! Tests of the comparison itself.

mod commands;
mod covering;
mod guards;
mod reporting;
mod translation;
