//! Behavior that no clause states: worked runs, odd carriers, odd members, texts, and each call
//! once.
#![tactic(auto)]

// Depends on: otel_examples test_support

mod carry;
mod logs;
mod members;
mod paths;
mod propagation;
mod trace;
mod tracing;
