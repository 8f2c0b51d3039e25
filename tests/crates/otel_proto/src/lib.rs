//! The bytes of values and attributes, which are those of protobuf 3.21 for Python.
#![tactic(auto)]

mod attributes;
mod values;
