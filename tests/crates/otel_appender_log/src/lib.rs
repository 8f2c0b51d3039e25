//! Behavior of the sink for the crate `log` that no clause states.
#![tactic(auto)]

// Depends on: test_support otel_examples

mod bridge;
mod values;
