//! Behavior that no clause states: worked rows, limits, printed texts, and each public call with
//! ample memory.
#![tactic(auto)]

// Depends on: otel_examples test_support

mod active;
mod baggage;
mod context;
mod span;
mod span_ref;
mod spans;
mod stack;
mod status;
