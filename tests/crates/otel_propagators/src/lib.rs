//! Behavior that no clause states: the headers' worked rows, and each call once.
#![tactic(auto)]

// Depends on: test_support

mod b3;
mod baggage;
mod service;
mod there_and_back;
mod trace_context;
