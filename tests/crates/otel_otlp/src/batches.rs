//! Batches of spans.
use opentelemetry::trace::{
    Event, Link, SpanContext, SpanId, SpanKind, Status, TraceFlags, TraceId, TraceState,
};
use opentelemetry::{Array, InstrumentationScope, Key, KeyValue, StringValue, Value};
use otel_sdk::resource::Resource;
use otel_sdk::trace::SpanData;
use std::alloc::{AllocError, Global};
use std::rc::Rc;
use std::test::Fail;
use test_support::span_data;

const TRACE: u128 = 0x4bf92f3577b34da6a3ce929d0e0e4736;

const FIRST: u64 = 1_760_000_000_000_000_000;

/// The scope with this name.
pub fn scope(alloc: Global, name: &'static str) -> Result<Rc<InstrumentationScope>, AllocError> {
    let scope = InstrumentationScope::builder(StringValue::from(name)).build(alloc)?;
    Ok(Rc::new(alloc, scope)?)
}

/// A local root in trace 7, with this number as its span id, that recorded nothing.
pub fn root(
    alloc: Global,
    number: u64,
    scope: Rc<InstrumentationScope>,
) -> Result<SpanData, AllocError> {
    let mut root = span_data(alloc, number, 3)?;
    root.start_time = 0;
    root.end_time = u64::MAX;
    root.instrumentation_scope = scope;
    Ok(root)
}

/// The attribute with this key and value.
pub fn attribute(key: &'static str, value: Value) -> KeyValue {
    KeyValue::new(Key::from(key), value)
}

/// The resource of the service `cart`.
pub fn cart(alloc: Global) -> Result<Resource, AllocError> {
    Ok(
        Resource::builder(alloc)?
            .with_service_name(StringValue::from("cart"))?
            .build(),
    )
}

// The span with this number of the trace, from start to end in milliseconds.
fn of_trace(
    alloc: Global,
    number: u64,
    scope: Rc<InstrumentationScope>,
    start: u64,
    end: u64,
) -> Result<SpanData, Fail> {
    let mut span = root(alloc, number, scope)?;
    span.span_context = SpanContext::new(
        TraceId::from(TRACE),
        SpanId::from(number),
        TraceFlags::new(3),
        false,
        TraceState::from_str(alloc, "congo=t61rcWkgMzE")?,
    );
    span.parent_span_id = SpanId::from(0xa000000000000001);
    span.start_time = FIRST + start * 1_000_000;
    span.end_time = FIRST + end * 1_000_000;
    Ok(span)
}

// The span `load cart` of the scope `store`.
fn load(alloc: Global) -> Result<SpanData, Fail> {
    let store = InstrumentationScope::builder(StringValue::from("store"))
        .with_version(StringValue::from("1.2.0"))
        .build(alloc)?;
    let mut span = of_trace(alloc, 0xa000000000000002, Rc::new(alloc, store)?, 5, 20)?;
    span.span_kind = SpanKind::Client;
    span.name = StringValue::from("load cart");
    span.attributes
        .push(attribute("retry", Value::from(false)))?;
    let keys = vec![in alloc; StringValue::from("c:42"), StringValue::from("c:43")]?;
    let given = vec![in alloc; attribute("keys", Value::Array(Array::from(keys)))]?;
    let missed = Event::new(
        StringValue::from("cache miss"),
        FIRST + 10_000_000,
        given,
        0,
    );
    span.events.events.push(missed)?;
    Ok(span)
}

// The span `price` of the scope `cart`, which failed.
fn price(alloc: Global, scope: Rc<InstrumentationScope>) -> Result<SpanData, Fail> {
    let mut span = of_trace(alloc, 0xa000000000000003, scope, 20, 40)?;
    span.name = StringValue::from("price");
    let given = vec![in alloc; attribute("exception.message", Value::from("no price for \"7\""))]?;
    let failed = Event::new(StringValue::from("exception"), FIRST + 38_000_000, given, 0);
    span.events.events.push(failed)?;
    let other = SpanContext::new(
        TraceId::from(7),
        SpanId::from(9),
        TraceFlags::new(1),
        true,
        TraceState::NONE,
    );
    span.links.links.push(Link::new(other, Vec::new(alloc), 0))?;
    span.status = Status::error(StringValue::from("no price for \"7\""));
    Ok(span)
}

// The span of the request, under a remote parent.
fn request(alloc: Global, scope: Rc<InstrumentationScope>) -> Result<SpanData, Fail> {
    let mut span = of_trace(alloc, 0xa000000000000001, scope, 0, 45)?;
    span.parent_span_id = SpanId::from(0x00f067aa0ba902b7);
    span.parent_span_is_remote = true;
    span.span_kind = SpanKind::Server;
    span.name = StringValue::from("GET /cart");
    span.attributes
        .push(attribute("http.request.method", Value::from("GET")))?;
    span.attributes
        .push(attribute("url.path", Value::from("/cart")))?;
    span.attributes
        .push(attribute("http.response.status_code", Value::from(500)))?;
    span.status = Status::error(StringValue::from(""));
    Ok(span)
}

/// A batch of three spans in two scopes, in the order of their ends. The caller is remote.
pub fn three(alloc: Global) -> Result<Vec<SpanData>, Fail> {
    let own = scope(alloc, "cart")?;
    let mut batch = Vec::new(alloc);
    batch.push(load(alloc)?)?;
    batch.push(price(alloc, own.clone()?)?)?;
    batch.push(request(alloc, own)?)?;
    Ok(batch)
}
