//! Helpers for the tests of several crates: contexts with a name, full stacks, recording spans,
//! ended spans of the SDK, baggages and maps of texts.
#![tactic(auto)]

// Depends on: otel_ids otel_base otel_context opentelemetry otel_examples otel_sdk_base otel_sdk_span

mod carriers;
mod contexts;
mod sdk;
mod spans;

pub use carriers::{held, map_of};
pub use contexts::{
    Member, POSITIONS, assert_attached, baggage_of, filled, name_of, named, text_of,
};
pub use sdk::span_data;
pub use spans::{LAST_NUMBER, NUMBERS, remote_span_context, span, span_context, tracer};
