//! Batches of many scopes, which are grouped in linear time.
use crate::batches::root;
use opentelemetry::{InstrumentationScope, StringValue};
use otel_otlp::traces_text;
use otel_sdk::resource::Resource;
use serde_json::Value;
use std::rc::Rc;
use std::test::Fail;

#[test]
fn many_scopes_with_two_spans_each(rt: HostRuntime) -> Result<(), Fail> {
    let alloc = rt.alloc();
    let mut batch = Vec::new(alloc);
    for number in 0..4_096u64 {
        let name = format!(in alloc; "s{}", number % 2_048)?;
        let scope = InstrumentationScope::builder(StringValue::from(name)).build(alloc)?;
        batch.push(root(alloc, number + 1, Rc::new(alloc, scope)?)?)?;
    }
    let none = Resource::builder_empty(alloc).build();
    let text = traces_text(alloc, &none, batch.as_slice())?;
    let data = Value::from_str(alloc, text.as_str())?;
    let at = "/resourceSpans/0/scopeSpans";
    let groups = data.pointer(at).and_then(Value::as_array).ok_or("groups")?;
    assert_eq!(rt; groups.len(), 2_048);
    for (place, group) in groups.iter().enumerate() {
        let name = format!(in alloc; "s{place}")?;
        let first = format!(in alloc; "{:016x}", place + 1)?;
        let second = format!(in alloc; "{:016x}", place + 2_049)?;
        for (at, wanted) in [
            ("/scope/name", name.as_str()),
            ("/spans/0/spanId", first.as_str()),
            ("/spans/1/spanId", second.as_str()),
        ] {
            let found = group.pointer(at).and_then(Value::as_str);
            assert_eq!(rt; found, Some(wanted), "{place}");
        }
    }
    Ok(())
}
