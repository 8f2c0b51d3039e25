//! The callers of the API.

mod active;
mod baggage;
mod header_names;
mod headers;
mod in_span;
mod log_bridge;
mod overlap;
mod scope;
mod service;
mod there_and_back;
mod trace_state;
