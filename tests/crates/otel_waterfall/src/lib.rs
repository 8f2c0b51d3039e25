//! Properties of pictures that no clause states: the order of the rows, whole pictures, and writers
//! that fail.
#![tactic(auto)]

// Depends on: otel_sdk test_support

mod durations;
mod flushes;
mod names;
mod pages;
mod pictures;
mod refusals;
