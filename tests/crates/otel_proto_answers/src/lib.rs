//! The reading of a collector's answers. The rows are those of protobuf 3.21 for Python.
// Depends on: hex
#![tactic(auto)]

mod drawn;
mod responses;
mod statuses;
