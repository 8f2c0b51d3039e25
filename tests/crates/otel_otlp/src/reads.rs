//! Lines that are read: lines of the exporter, and lines of other programs.
use crate::batches::{attribute, cart, root, scope, three};
use opentelemetry::trace::{
    Event, Link, SpanContext, SpanId, SpanKind, Status, TraceFlags, TraceId, TraceState,
};
use opentelemetry::{Array, InstrumentationScope, Key, KeyValue, StringValue, Value};
use otel_otlp::{read_traces, traces_text};
use otel_sdk::resource::Resource;
use otel_sdk::trace::SpanData;
use std::alloc::{AllocError, Global};
use std::rc::Rc;
use std::test::Fail;

// Whether both spans have the same data and scopes with the same texts.
fn is_same(a: &SpanData, b: &SpanData) -> bool {
    a.span_context == b.span_context
        && a.parent_span_id == b.parent_span_id
        && a.parent_span_is_remote == b.parent_span_is_remote
        && a.span_kind == b.span_kind
        && a.name == b.name
        && a.start_time == b.start_time
        && a.end_time == b.end_time
        && a.attributes == b.attributes
        && a.dropped_attributes_count == b.dropped_attributes_count
        && a.events.events == b.events.events
        && a.events.dropped_count == b.events.dropped_count
        && a.links.links == b.links.links
        && a.links.dropped_count == b.links.dropped_count
        && a.status == b.status
        && *a.instrumentation_scope == *b.instrumentation_scope
}

// A span in which each part differs from its default.
fn rich(alloc: Global) -> Result<SpanData, Fail> {
    let own = InstrumentationScope::builder(StringValue::from("rich"))
        .with_version(StringValue::from(""))
        .with_schema_url(StringValue::from("u"))
        .with_attributes(vec![in alloc; attribute("of", Value::from("scope"))]?)
        .build(alloc)?;
    let mut span = root(alloc, 77, Rc::new(alloc, own)?)?;
    span.parent_span_id = SpanId::from(78);
    span.span_kind = SpanKind::Consumer;
    span.name = StringValue::from("a \"b\" \u{1F44D}");
    span.attributes
        .push(attribute("least", Value::from(i64::MIN)))?;
    span.attributes
        .push(attribute("greatest", Value::from(i64::MAX)))?;
    span.attributes.push(attribute("no", Value::from(false)))?;
    span.attributes.push(attribute("", Value::from("")))?;
    let truths = Array::from(vec![in alloc; true, false]?);
    span.attributes
        .push(attribute("truths", Value::Array(truths)))?;
    let numbers = Array::from(vec![in alloc; 1, -2]?);
    span.attributes
        .push(attribute("numbers", Value::Array(numbers)))?;
    let texts = Array::from(vec![in alloc; StringValue::from("x"), StringValue::from("")]?);
    span.attributes
        .push(attribute("texts", Value::Array(texts)))?;
    span.dropped_attributes_count = 1;
    let given = vec![in alloc; attribute("k", Value::from(1))]?;
    let event = Event::new(StringValue::from("e"), u64::MAX, given, 2);
    span.events.events.push(event)?;
    span.events.dropped_count = u32::MAX;
    let state = TraceState::from_str(alloc, "a=1,b=2")?;
    let other = SpanContext::new(
        TraceId::from(u128::MAX),
        SpanId::from(u64::MAX),
        TraceFlags::new(255),
        false,
        state,
    );
    let given = vec![in alloc; attribute("k", Value::from("v"))]?;
    span.links.links.push(Link::new(other, given, 3))?;
    span.links.dropped_count = 4;
    span.status = Status::Ok;
    Ok(span)
}

#[test]
fn what_the_exporter_writes_is_read_back(rt: HostRuntime) -> Result<(), Fail> {
    let alloc = rt.alloc();
    let mut batch = three(alloc)?;
    batch.push(rich(alloc)?)?;
    batch.push(root(alloc, 5, scope(alloc, "cart")?)?)?;
    let line = traces_text(alloc, &cart(alloc)?, batch.as_slice())?;
    let read = read_traces(alloc, line.as_str())?;
    // The spans of a scope are together, and scopes in the order of their first spans.
    let places = [0usize, 1, 2, 4, 3];
    assert_eq!(rt; read.len(), places.len());
    for (index, place) in places.iter().enumerate() {
        assert!(rt; is_same(&read.as_slice()[index], &batch.as_slice()[*place]));
    }
    Ok(())
}

#[test]
fn an_empty_array_is_read_as_one_of_texts(rt: HostRuntime) -> Result<(), Fail> {
    let alloc = rt.alloc();
    let mut span = root(alloc, 5, scope(alloc, "s")?)?;
    let none: Vec<i64> = Vec::new(alloc);
    span.attributes
        .push(attribute("k", Value::Array(Array::from(none))))?;
    let resource = Resource::builder_empty(alloc).build();
    let line = traces_text(alloc, &resource, &[span])?;
    let read = read_traces(alloc, line.as_str())?;
    let texts: Vec<StringValue> = Vec::new(alloc);
    assert!(rt;
        read.as_slice()[0].attributes.as_slice()[0].value == Value::Array(Array::from(texts))
    );
    Ok(())
}

// The line of one span with these members beside its ids.
fn line_of(alloc: Global, members: &str) -> Result<String, AllocError> {
    format!(in alloc;
        "{{\"resourceSpans\":[{{\"scopeSpans\":[{{\"spans\":[{{{members}\"traceId\":\"00000000000000000000000000000007\",\"spanId\":\"0000000000000009\"}}]}}]}}]}}"
    )
}

fn span_of(alloc: Global, members: &str) -> Result<SpanData, Fail> {
    let line = line_of(alloc, members)?;
    let mut read = read_traces(alloc, line.as_str())?;
    Ok(read.pop().ok_or("no span")?)
}

#[test]
fn absent_members_have_their_defaults(rt: HostRuntime) -> Result<(), Fail> {
    let alloc = rt.alloc();
    for members in [
        "",
        "\"name\":null,\"status\":null,\"events\":null,",
        "\"other\":[{}],\"start_time_unix_nano\":7,",
    ] {
        let span = span_of(alloc, members)?;
        let context = &span.span_context;
        assert!(rt; context.trace_id() == TraceId::from(7));
        assert!(rt; context.span_id() == SpanId::from(9));
        assert_eq!(rt; context.trace_flags().to_u8(), 0);
        assert!(rt; !context.is_remote());
        assert!(rt; *context.trace_state() == TraceState::NONE);
        assert!(rt; span.parent_span_id == SpanId::INVALID);
        assert!(rt; !span.parent_span_is_remote);
        assert!(rt; span.span_kind == SpanKind::Internal);
        assert_eq!(rt; span.name.as_str(), "");
        assert_eq!(rt; span.start_time, 0);
        assert_eq!(rt; span.end_time, 0);
        assert!(rt; span.attributes.is_empty());
        assert_eq!(rt; span.dropped_attributes_count, 0);
        assert!(rt; span.events.events.is_empty());
        assert_eq!(rt; span.events.dropped_count, 0);
        assert!(rt; span.links.links.is_empty());
        assert_eq!(rt; span.links.dropped_count, 0);
        assert!(rt; span.status == Status::Unset);
        assert_eq!(rt; span.instrumentation_scope.name(), "");
        assert!(rt; span.instrumentation_scope.version().is_none());
        assert!(rt; span.instrumentation_scope.schema_url().is_none());
    }
    Ok(())
}

#[test]
fn numbers_are_numbers_or_texts(rt: HostRuntime) -> Result<(), Fail> {
    let alloc = rt.alloc();
    for members in [
        "\"startTimeUnixNano\":1760000000000000001,\"endTimeUnixNano\":18446744073709551615,",
        "\"endTimeUnixNano\":\"18446744073709551615\",\"startTimeUnixNano\":\"1760000000000000001\",",
    ] {
        let span = span_of(alloc, members)?;
        assert_eq!(rt; span.start_time, 1760000000000000001);
        assert_eq!(rt; span.end_time, u64::MAX);
    }
    Ok(())
}

#[test]
fn ids_of_either_case(rt: HostRuntime) -> Result<(), Fail> {
    let alloc = rt.alloc();
    let span = span_of(
        alloc,
        "\"parentSpanId\":\"00F067aa0BA902B7\",\"flags\":\"771\",",
    )?;
    assert!(rt; span.parent_span_id == SpanId::from(0x00f067aa0ba902b7));
    assert_eq!(rt; span.span_context.trace_flags().to_u8(), 3);
    assert!(rt; span.parent_span_is_remote);
    let root = span_of(alloc, "\"parentSpanId\":\"\",\"flags\":515,")?;
    assert!(rt; root.parent_span_id == SpanId::INVALID);
    assert!(rt; !root.parent_span_is_remote);
    Ok(())
}

#[test]
fn kinds_and_codes_are_numbers_or_names(rt: HostRuntime) -> Result<(), Fail> {
    let alloc = rt.alloc();
    let kinds = [
        ("0", "\"SPAN_KIND_UNSPECIFIED\"", SpanKind::Internal),
        ("1", "\"SPAN_KIND_INTERNAL\"", SpanKind::Internal),
        ("2", "\"SPAN_KIND_SERVER\"", SpanKind::Server),
        ("3", "\"SPAN_KIND_CLIENT\"", SpanKind::Client),
        ("4", "\"SPAN_KIND_PRODUCER\"", SpanKind::Producer),
        ("5", "\"SPAN_KIND_CONSUMER\"", SpanKind::Consumer),
    ];
    for (number, name, kind) in kinds {
        for text in [number, name] {
            let members = format!(in alloc; "\"kind\":{text},")?;
            assert!(rt; span_of(alloc, members.as_str())?.span_kind == kind);
        }
    }
    for code in ["2", "\"STATUS_CODE_ERROR\""] {
        let members = format!(in alloc; "\"status\":{{\"message\":\"m\",\"code\":{code}}},")?;
        let status = span_of(alloc, members.as_str())?.status;
        assert!(rt; status == Status::error(StringValue::from("m")));
    }
    for code in ["1", "\"STATUS_CODE_OK\""] {
        let members = format!(in alloc; "\"status\":{{\"code\":{code}}},")?;
        assert!(rt; span_of(alloc, members.as_str())?.status == Status::Ok);
    }
    for status in [
        "{}",
        "{\"message\":\"m\"}",
        "{\"code\":0}",
        "{\"code\":\"STATUS_CODE_UNSET\"}",
    ] {
        let members = format!(in alloc; "\"status\":{status},")?;
        assert!(rt; span_of(alloc, members.as_str())?.status == Status::Unset);
    }
    Ok(())
}

#[test]
fn values_by_the_cases_of_the_api(rt: HostRuntime) -> Result<(), Fail> {
    let alloc = rt.alloc();
    let rows = [
        ("{\"intValue\":5}", "5"),
        ("{\"intValue\":\"-5\"}", "-5"),
        ("{\"boolValue\":true}", "true"),
        ("{\"doubleValue\":1.5}", "1.5"),
        ("{\"doubleValue\":3}", "3"),
        ("{\"doubleValue\":\"-Infinity\"}", "-Infinity"),
        ("{\"bytesValue\":\"_-8\"}", "_-8"),
        ("{\"kvlistValue\":{\"values\":[]}}", "{\"values\":[]}"),
        ("{}", ""),
        ("null", ""),
        ("{\"arrayValue\":{}}", "[]"),
        (
            "{\"arrayValue\":{\"values\":[{\"intValue\":\"1\"},{\"intValue\":2}]}}",
            "[1,2]",
        ),
        (
            "{\"arrayValue\":{\"values\":[{\"boolValue\":false}]}}",
            "[false]",
        ),
        (
            "{\"arrayValue\":{\"values\":[{\"intValue\":\"1\"},{\"doubleValue\":2.5},{}]}}",
            "[\"1\",\"2.5\",\"\"]",
        ),
    ];
    for (value, wanted) in rows {
        let members = format!(in alloc; "\"attributes\":[{{\"value\":{value},\"key\":\"k\"}}],")?;
        let span = span_of(alloc, members.as_str())?;
        let read = &span.attributes.as_slice()[0];
        assert_eq!(rt; read.key.as_str(), "k");
        let text = format!(in alloc; "{}", read.value)?;
        assert_eq!(rt; text.as_str(), wanted);
    }
    Ok(())
}

#[test]
fn spans_are_under_their_scopes(rt: HostRuntime) -> Result<(), Fail> {
    let alloc = rt.alloc();
    let ids = "\"traceId\":\"00000000000000000000000000000007\",\"spanId\":";
    let line = format!(in alloc;
        "{{\"resourceSpans\":[{{\"scopeSpans\":[{{\"spans\":[{{{ids}\"0000000000000001\"}},{{{ids}\"0000000000000002\"}}],\"scope\":{{\"version\":\"1\",\"name\":\"a\"}}}},{{\"schemaUrl\":\"u\",\"spans\":[{{{ids}\"0000000000000003\"}}],\"scope\":{{\"name\":\"b\"}}}}]}},{{}},{{\"scopeSpans\":[{{\"spans\":[{{{ids}\"0000000000000004\"}}],\"scope\":{{\"name\":\"c\"}}}}]}}]}}"
    )?;
    let read = read_traces(alloc, line.as_str())?;
    let names = ["a", "a", "b", "c"];
    assert_eq!(rt; read.len(), names.len());
    for (index, name) in names.iter().enumerate() {
        let span = &read.as_slice()[index];
        assert!(rt; span.span_context.span_id() == SpanId::from(index as u64 + 1));
        assert_eq!(rt; span.instrumentation_scope.name(), *name);
    }
    assert!(rt; read.as_slice()[1].instrumentation_scope.version() == Some("1"));
    assert!(rt; read.as_slice()[2].instrumentation_scope.schema_url() == Some("u"));
    Ok(())
}

#[test]
fn lines_without_spans(rt: HostRuntime) -> Result<(), Fail> {
    let alloc = rt.alloc();
    for line in [
        "{}",
        " {\"resourceLogs\":[5]}\n",
        "{\"resourceSpans\":[]}",
        "{\"resourceSpans\":[{\"scopeSpans\":[{}]}]}",
    ] {
        assert!(rt; read_traces(alloc, line)?.is_empty());
    }
    Ok(())
}
