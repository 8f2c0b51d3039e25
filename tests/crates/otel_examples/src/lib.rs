//! The callers at work, once each with enough memory, and properties of recording spans and loggers
//! that no clause states.
#![tactic(auto)]

// Depends on: test_support

mod api;
mod mover;
mod recording;
mod sdk;
