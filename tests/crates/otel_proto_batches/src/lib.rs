//! The bytes of batches, which are those of protobuf 3.21 for Python.
// Depends on: hex test_support
#![tactic(auto)]

mod logs;
mod rows;
mod traces;
