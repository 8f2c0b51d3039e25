//! Rows of bytes, and where they are in a batch.
use hex;
use opentelemetry::trace::{SpanContext, SpanId, TraceFlags, TraceId, TraceState};
use opentelemetry::{InstrumentationScope, Key, KeyValue, StringValue, Value};
use otel_sdk_base::resource::Resource;
use std::alloc::{AllocError, Global};
use std::process::Abort;
use std::rc::Rc;
use std::test::Fail;

pub const TRACE: u128 = 0x0af7651916cd43dd8448eb211c80319c;

pub const SPAN: u64 = 0xb7ad6b7169203331;

/// The bytes of a row.
pub fn bytes(alloc: Global, row: &str) -> Result<Vec<u8>, Fail> {
    Ok(hex::decode(alloc, row)?)
}

/// Asserts that the bytes end with a message of less than 128 bytes: its tag, its length and the
/// row.
pub fn assert_ends(
    rt: &impl Abort,
    alloc: Global,
    found: &[u8],
    tag: u8,
    row: &str,
) -> Result<(), Fail> {
    let row = bytes(alloc, row)?;
    let mut wanted = vec![in alloc; tag, row.len() as u8]?;
    wanted.extend_from_slice(row.as_slice())?;
    let end = &found[found.len().saturating_sub(wanted.len())..];
    assert_eq!(rt; end, wanted.as_slice());
    Ok(())
}

/// A resource without attributes.
pub fn nobody(alloc: Global) -> Resource {
    Resource::builder_empty(alloc).build()
}

/// The scope with this name.
pub fn scope(alloc: Global, name: &'static str) -> Result<Rc<InstrumentationScope>, AllocError> {
    let scope = InstrumentationScope::builder(StringValue::from(name)).build(alloc)?;
    Ok(Rc::new(alloc, scope)?)
}

/// The attribute with this key and value.
pub fn attribute(key: &'static str, value: Value) -> KeyValue {
    KeyValue::new(Key::from(key), value)
}

/// A context in the rows' trace and span, with these flags and this trace state.
pub fn context(alloc: Global, flags: u8, state: &str) -> Result<SpanContext, Fail> {
    Ok(SpanContext::new(
        TraceId::from(TRACE),
        SpanId::from(SPAN),
        TraceFlags::new(flags),
        false,
        TraceState::from_str(alloc, state)?,
    ))
}
