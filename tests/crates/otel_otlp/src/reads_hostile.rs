//! Lines that are long, or that no exporter writes.
use opentelemetry::Value;
use opentelemetry::trace::SpanId;
use otel_otlp::{ReadError, read_resource_spans, read_traces};
use std::alloc::{AllocError, Global};
use std::test::Fail;

// The text, repeated this number of times.
fn repeated(alloc: Global, text: &str, times: usize) -> Result<String, AllocError> {
    let mut all = String::new(alloc);
    for _ in 0..times {
        all.push_str(text)?;
    }
    Ok(all)
}

// A line with one span that has these members beside its trace id.
fn span_line(alloc: Global, members: &str) -> Result<String, AllocError> {
    format!(in alloc;
        "{{\"resourceSpans\":[{{\"scopeSpans\":[{{\"spans\":[{{{members}\"traceId\":\"00000000000000000000000000000007\"}}]}}]}}]}}"
    )
}

// Whether the line was refused because it isn't JSON.
fn is_no_json<T: Drop>(read: Result<T, ReadError>) -> bool {
    match read {
        Err(ReadError::Json) => true,
        _ => false,
    }
}

#[test]
fn ten_thousand_levels_are_refused(rt: HostRuntime) -> Result<(), Fail> {
    let alloc = rt.alloc();
    let open = repeated(alloc, "{\"arrayValue\":{\"values\":[", 10_000)?;
    let close = repeated(alloc, "]}}", 10_000)?;
    for tail in ["]}", "", "]}\n{}"] {
        let whole = format!(in alloc; "{{\"resourceSpans\":[{open}{close}{tail}")?;
        assert!(rt; is_no_json(read_traces(alloc, whole.as_str())));
        let cut = format!(in alloc; "{{\"resourceSpans\":[{open}{tail}")?;
        assert!(rt; is_no_json(read_resource_spans(alloc, cut.as_str())));
    }
    Ok(())
}

#[test]
fn a_million_characters(rt: HostRuntime) -> Result<(), Fail> {
    let alloc = rt.alloc();
    let text = repeated(alloc, "\u{1F44D}", 1_000_000)?;
    let members = format!(in alloc; "\"name\":\"{text}\",\"spanId\":\"0000000000000009\",")?;
    let line = span_line(alloc, members.as_str())?;
    let read = read_traces(alloc, line.as_str())?;
    assert_eq!(rt; read.as_slice()[0].name.as_str().len(), 4_000_000);
    // As an id it is refused, and the error doesn't repeat it.
    let members = format!(in alloc; "\"spanId\":\"{text}\",")?;
    let line = span_line(alloc, members.as_str())?;
    let Err(error) = read_traces(alloc, line.as_str()) else {
        return Err(Fail::from("read"));
    };
    let told = format!(in alloc; "{error}")?;
    assert_eq!(rt;
        told.as_str(),
        "resourceSpans[0].scopeSpans[0].spans[0].spanId: expected 16 hexadecimal digits"
    );
    Ok(())
}

#[test]
fn numbers_over_two_to_the_53_are_exact(rt: HostRuntime) -> Result<(), Fail> {
    let alloc = rt.alloc();
    let id = "\"spanId\":\"0000000000000009\",";
    for (number, wanted) in [
        ("9007199254740993", 9007199254740993),
        ("\"9007199254740993\"", 9007199254740993),
        ("-9007199254740993", -9007199254740993),
        ("9223372036854775807", i64::MAX),
        ("\"-9223372036854775808\"", i64::MIN),
    ] {
        let members = format!(in alloc;
            "{id}\"attributes\":[{{\"key\":\"k\",\"value\":{{\"intValue\":{number}}}}}],"
        )?;
        let line = span_line(alloc, members.as_str())?;
        let read = read_traces(alloc, line.as_str())?;
        assert!(rt; read.as_slice()[0].attributes.as_slice()[0].value == Value::I64(wanted));
    }
    for number in [
        "9223372036854775808",
        "1e3",
        "1.0",
        "\"\"",
        "\"0x1\"",
        "\" 1\"",
    ] {
        let members = format!(in alloc;
            "{id}\"attributes\":[{{\"key\":\"k\",\"value\":{{\"intValue\":{number}}}}}],"
        )?;
        let line = span_line(alloc, members.as_str())?;
        assert!(rt; read_traces(alloc, line.as_str()).is_err());
    }
    Ok(())
}

#[test]
fn ids_of_wrong_lengths(rt: HostRuntime) -> Result<(), Fail> {
    let alloc = rt.alloc();
    for id in [
        "",
        "1",
        "000000000000000",
        "00000000000000009",
        "000000000000000g",
        "00000000000000\u{e9}",
    ] {
        let members = format!(in alloc; "\"spanId\":\"{id}\",")?;
        let line = span_line(alloc, members.as_str())?;
        assert!(rt; read_traces(alloc, line.as_str()).is_err());
    }
    // An id of zeros is one of the right length.
    let line = span_line(alloc, "\"spanId\":\"0000000000000000\",")?;
    let read = read_traces(alloc, line.as_str())?;
    assert!(rt; read.as_slice()[0].span_context.span_id() == SpanId::INVALID);
    Ok(())
}
