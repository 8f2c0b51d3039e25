//! Properties of spans that no clause states: calls succeed, and worked cases.
#![tactic(auto)]

// Depends on: test_support

mod span;
