//! The values of batches, as texts.
use crate::batches::{attribute, cart, root, scope, three};
use opentelemetry::trace::{Link, SpanContext, SpanId, Status, TraceFlags, TraceId, TraceState};
use opentelemetry::{Array, InstrumentationScope, StringValue, Value};
use otel_otlp::traces_text;
use otel_sdk::resource::Resource;
use otel_sdk::trace::SpanData;
use serde_json::Value as Json;
use std::alloc::Global;
use std::rc::Rc;
use std::test::Fail;

/// The line of [`crate::batches::three`].
const THREE: [&'static str; 28] = [
    "{\"resourceSpans\":[{\"resource\":{\"attributes\":[{\"key\":\"service.name\",\"va",
    "lue\":{\"stringValue\":\"cart\"}},{\"key\":\"telemetry.sdk.language\",\"value\":{",
    "\"stringValue\":\"rattle\"}},{\"key\":\"telemetry.sdk.name\",\"value\":{\"stringV",
    "alue\":\"otel_sdk\"}},{\"key\":\"telemetry.sdk.version\",\"value\":{\"stringValu",
    "e\":\"0.1.0\"}}]},\"scopeSpans\":[{\"scope\":{\"name\":\"store\",\"version\":\"1.2.0",
    "\"},\"spans\":[{\"attributes\":[{\"key\":\"retry\",\"value\":{\"boolValue\":false}}",
    "],\"endTimeUnixNano\":\"1760000000020000000\",\"events\":[{\"attributes\":[{\"k",
    "ey\":\"keys\",\"value\":{\"arrayValue\":{\"values\":[{\"stringValue\":\"c:42\"},{\"s",
    "tringValue\":\"c:43\"}]}}}],\"name\":\"cache miss\",\"timeUnixNano\":\"176000000",
    "0010000000\"}],\"flags\":259,\"kind\":3,\"name\":\"load cart\",\"parentSpanId\":\"",
    "a000000000000001\",\"spanId\":\"a000000000000002\",\"startTimeUnixNano\":\"176",
    "0000000005000000\",\"traceId\":\"4bf92f3577b34da6a3ce929d0e0e4736\",\"traceS",
    "tate\":\"congo=t61rcWkgMzE\"}]},{\"scope\":{\"name\":\"cart\"},\"spans\":[{\"endTi",
    "meUnixNano\":\"1760000000040000000\",\"events\":[{\"attributes\":[{\"key\":\"exc",
    "eption.message\",\"value\":{\"stringValue\":\"no price for \\\"7\\\"\"}}],\"name\":",
    "\"exception\",\"timeUnixNano\":\"1760000000038000000\"}],\"flags\":259,\"kind\":",
    "1,\"links\":[{\"flags\":769,\"spanId\":\"0000000000000009\",\"traceId\":\"0000000",
    "0000000000000000000000007\"}],\"name\":\"price\",\"parentSpanId\":\"a000000000",
    "000001\",\"spanId\":\"a000000000000003\",\"startTimeUnixNano\":\"1760000000020",
    "000000\",\"status\":{\"code\":2,\"message\":\"no price for \\\"7\\\"\"},\"traceId\":\"",
    "4bf92f3577b34da6a3ce929d0e0e4736\",\"traceState\":\"congo=t61rcWkgMzE\"},{\"",
    "attributes\":[{\"key\":\"http.request.method\",\"value\":{\"stringValue\":\"GET\"",
    "}},{\"key\":\"url.path\",\"value\":{\"stringValue\":\"/cart\"}},{\"key\":\"http.res",
    "ponse.status_code\",\"value\":{\"intValue\":\"500\"}}],\"endTimeUnixNano\":\"176",
    "0000000045000000\",\"flags\":771,\"kind\":2,\"name\":\"GET /cart\",\"parentSpanI",
    "d\":\"00f067aa0ba902b7\",\"spanId\":\"a000000000000001\",\"startTimeUnixNano\":",
    "\"1760000000000000000\",\"status\":{\"code\":2},\"traceId\":\"4bf92f3577b34da6a",
    "3ce929d0e0e4736\",\"traceState\":\"congo=t61rcWkgMzE\"}]}]}]}",
];

// The text of the batch of one span, without a resource.
fn text_of(alloc: Global, span: SpanData) -> Result<String, Fail> {
    let resource = Resource::builder_empty(alloc).build();
    Ok(traces_text(alloc, &resource, &[span])?)
}

// A root in the scope `s`.
fn plain(alloc: Global) -> Result<SpanData, Fail> {
    Ok(root(alloc, 10, scope(alloc, "s")?)?)
}

// The text of a span with the attribute `k`.
fn with_value(alloc: Global, value: Value) -> Result<String, Fail> {
    let mut span = plain(alloc)?;
    span.attributes.push(attribute("k", value))?;
    text_of(alloc, span)
}

#[test]
fn three_spans_in_two_scopes(rt: HostRuntime) -> Result<(), Fail> {
    let alloc = rt.alloc();
    let batch = three(alloc)?;
    let text = traces_text(alloc, &cart(alloc)?, batch.as_slice())?;
    let mut wanted = String::new(alloc);
    for piece in THREE {
        wanted.push_str(piece)?;
    }
    assert_eq!(rt; text.as_str(), wanted.as_str());
    Ok(())
}

#[test]
fn a_span_that_recorded_nothing(rt: HostRuntime) -> Result<(), Fail> {
    let alloc = rt.alloc();
    let text = text_of(alloc, plain(alloc)?)?;
    assert_eq!(rt;
        text.as_str(),
        "{\"resourceSpans\":[{\"resource\":{},\"scopeSpans\":[{\"scope\":{\"name\":\"s\"},\"spans\":[{\"endTimeUnixNano\":\"18446744073709551615\",\"flags\":259,\"kind\":1,\"name\":\"work\",\"spanId\":\"000000000000000a\",\"startTimeUnixNano\":\"0\",\"traceId\":\"00000000000000000000000000000007\"}]}]}]}"
    );
    Ok(())
}

#[test]
fn values_by_their_cases(rt: HostRuntime) -> Result<(), Fail> {
    let alloc = rt.alloc();
    let greatest = with_value(alloc, Value::from(i64::MAX))?;
    assert!(rt;
        greatest
            .as_str()
            .contains("{\"intValue\":\"9223372036854775807\"}")
    );
    let zero = with_value(alloc, Value::from(0))?;
    assert!(rt; zero.as_str().contains("{\"intValue\":\"0\"}"));
    let no = with_value(alloc, Value::from(false))?;
    assert!(rt; no.as_str().contains("{\"boolValue\":false}"));
    let empty = with_value(alloc, Value::from(""))?;
    assert!(rt; empty.as_str().contains("{\"stringValue\":\"\"}"));
    let numbers = with_value(alloc, Value::Array(Array::from(vec![in alloc; 1, -2]?)))?;
    assert!(rt;
        numbers.as_str().contains(
            "{\"arrayValue\":{\"values\":[{\"intValue\":\"1\"},{\"intValue\":\"-2\"}]}}"
        )
    );
    let truths = with_value(alloc, Value::Array(Array::from(vec![in alloc; true]?)))?;
    assert!(rt;
        truths
            .as_str()
            .contains("{\"arrayValue\":{\"values\":[{\"boolValue\":true}]}}")
    );
    Ok(())
}

#[test]
fn empty_arrays_of_each_type(rt: HostRuntime) -> Result<(), Fail> {
    let alloc = rt.alloc();
    let bools: Vec<bool> = Vec::new(alloc);
    let numbers: Vec<i64> = Vec::new(alloc);
    let texts: Vec<StringValue> = Vec::new(alloc);
    for array in [Array::from(bools), Array::from(numbers), Array::from(texts)] {
        let text = with_value(alloc, Value::Array(array))?;
        assert!(rt; text.as_str().contains("{\"arrayValue\":{\"values\":[]}}"));
    }
    Ok(())
}

#[test]
fn texts_are_escaped(rt: HostRuntime) -> Result<(), Fail> {
    let alloc = rt.alloc();
    let escaped = with_value(alloc, Value::from("a\"b\\\n\u{1}"))?;
    assert!(rt; escaped.as_str().contains("\"a\\\"b\\\\\\n\\u0001\""));
    let plain = with_value(alloc, Value::from("\u{7f}\u{2028}\u{10ffff}"))?;
    assert!(rt; plain.as_str().contains("\"\u{7f}\u{2028}\u{10ffff}\""));
    Ok(())
}

#[test]
fn an_empty_key(rt: HostRuntime) -> Result<(), Fail> {
    let alloc = rt.alloc();
    let mut span = plain(alloc)?;
    span.attributes.push(attribute("", Value::from(1)))?;
    let text = text_of(alloc, span)?;
    assert!(rt;
        text.as_str().contains("\"attributes\":[{\"key\":\"\",\"value\":{\"intValue\":\"1\"}}]")
    );
    Ok(())
}

#[test]
fn flags_say_whether_the_other_span_is_remote(rt: HostRuntime) -> Result<(), Fail> {
    let alloc = rt.alloc();
    let mut span = plain(alloc)?;
    span.parent_span_id = SpanId::from(1);
    let local = text_of(alloc, span)?;
    assert!(rt; local.as_str().contains("\"flags\":259,"));
    let mut span = plain(alloc)?;
    span.parent_span_id = SpanId::from(1);
    span.parent_span_is_remote = true;
    let remote = text_of(alloc, span)?;
    assert!(rt; remote.as_str().contains("\"flags\":771,"));
    for (is_remote, wanted) in [(true, "[{\"flags\":769,"), (false, "[{\"flags\":257,")] {
        let mut span = plain(alloc)?;
        let other = SpanContext::new(
            TraceId::from(7),
            SpanId::from(1),
            TraceFlags::new(1),
            is_remote,
            TraceState::NONE,
        );
        span.links.links.push(Link::new(other, Vec::new(alloc), 0))?;
        let text = text_of(alloc, span)?;
        assert!(rt; text.as_str().contains(wanted));
    }
    Ok(())
}

#[test]
fn statuses_by_their_codes(rt: HostRuntime) -> Result<(), Fail> {
    let alloc = rt.alloc();
    let mut span = plain(alloc)?;
    span.status = Status::Ok;
    let fine = text_of(alloc, span)?;
    assert!(rt; fine.as_str().contains("\"status\":{\"code\":1}"));
    let mut span = plain(alloc)?;
    span.status = Status::error(StringValue::from(""));
    let failed = text_of(alloc, span)?;
    assert!(rt; failed.as_str().contains("\"status\":{\"code\":2}"));
    let mut span = plain(alloc)?;
    span.status = Status::error(StringValue::from("x"));
    let told = text_of(alloc, span)?;
    assert!(rt;
        told.as_str()
            .contains("\"status\":{\"code\":2,\"message\":\"x\"}")
    );
    Ok(())
}

#[test]
fn what_was_dropped_is_counted(rt: HostRuntime) -> Result<(), Fail> {
    let alloc = rt.alloc();
    let mut span = plain(alloc)?;
    span.dropped_attributes_count = 1;
    span.events.dropped_count = 2;
    span.links.dropped_count = u32::MAX;
    let text = text_of(alloc, span)?;
    assert!(rt;
        text.as_str().contains(
            "{\"droppedAttributesCount\":1,\"droppedEventsCount\":2,\"droppedLinksCount\":4294967295,"
        )
    );
    Ok(())
}

#[test]
fn an_empty_version_is_written(rt: HostRuntime) -> Result<(), Fail> {
    let alloc = rt.alloc();
    let scope = InstrumentationScope::builder(StringValue::from(""))
        .with_version(StringValue::from(""))
        .with_schema_url(StringValue::from("u"))
        .build(alloc)?;
    let text = text_of(alloc, root(alloc, 1, Rc::new(alloc, scope)?)?)?;
    assert!(rt;
        text.as_str().contains("\"schemaUrl\":\"u\",\"scope\":{\"name\":\"\",\"version\":\"\"}")
    );
    Ok(())
}

#[test]
fn a_repeated_key_of_a_scope_keeps_its_place(rt: HostRuntime) -> Result<(), Fail> {
    let alloc = rt.alloc();
    let given = vec![in alloc;
        attribute("a", Value::from(1)),
        attribute("b", Value::from(2)),
        attribute("a", Value::from(3)),
    ]?;
    let scope = InstrumentationScope::builder(StringValue::from("s"))
        .with_attributes(given)
        .build(alloc)?;
    let text = text_of(alloc, root(alloc, 1, Rc::new(alloc, scope)?)?)?;
    assert!(rt;
        text.as_str().contains(
            "{\"attributes\":[{\"key\":\"a\",\"value\":{\"intValue\":\"3\"}},{\"key\":\"b\",\"value\":{\"intValue\":\"2\"}}],\"name\":\"s\"}"
        )
    );
    Ok(())
}

#[test]
fn scopes_stand_as_they_first_appear(rt: HostRuntime) -> Result<(), Fail> {
    let alloc = rt.alloc();
    let batch = [
        root(alloc, 1, scope(alloc, "x")?)?,
        root(alloc, 2, scope(alloc, "y")?)?,
        root(alloc, 3, scope(alloc, "x")?)?,
    ];
    let resource = Resource::builder_empty(alloc)
        .with_schema_url(StringValue::from("u"))
        .build();
    let text = traces_text(alloc, &resource, &batch)?;
    let value = Json::from_str(alloc, text.as_str())?;
    let at = |path: &str| value.pointer(path).and_then(|found| found.as_str());
    assert_eq!(rt; at("/resourceSpans/0/schemaUrl"), Some("u"));
    assert_eq!(rt; at("/resourceSpans/0/scopeSpans/0/scope/name"), Some("x"));
    assert_eq!(rt;
        at("/resourceSpans/0/scopeSpans/0/spans/0/spanId"),
        Some("0000000000000001")
    );
    assert_eq!(rt;
        at("/resourceSpans/0/scopeSpans/0/spans/1/spanId"),
        Some("0000000000000003")
    );
    assert_eq!(rt; at("/resourceSpans/0/scopeSpans/1/scope/name"), Some("y"));
    assert_eq!(rt;
        at("/resourceSpans/0/scopeSpans/1/spans/0/spanId"),
        Some("0000000000000002")
    );
    assert_eq!(rt; at("/resourceSpans/0/scopeSpans/1/spans/1/spanId"), None);
    assert_eq!(rt; at("/resourceSpans/0/scopeSpans/2/scope/name"), None);
    Ok(())
}
