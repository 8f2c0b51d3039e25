//! Properties of log records and their processors that no clause states.
#![tactic(auto)]

// Depends on: test_support

mod calls;
mod exporter;
mod limits;
mod processor;
mod provider;
mod record;
