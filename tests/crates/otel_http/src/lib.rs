//! Behavior of the carriers over HTTP headers that no clause states: that calls succeed, and worked
//! cases.
// Depends on: otel_propagators bytes http1 http1_typed httparse
#![tactic(auto)]

mod bytes;
mod extractor;
mod injector;
mod lines;
mod service;
