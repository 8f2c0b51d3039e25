//! The values of batches of log records, as texts.
use crate::batches::scope;
use crate::records::{cart_service, no_price, observed, text_of, under};
use opentelemetry::logs::{AnyValue, LogRecord, Severity};
use opentelemetry::trace::{SpanId, TraceId};
use opentelemetry::{Key, StringValue};
use otel_otlp::logs_text;
use otel_sdk::logs::{LogData, SdkLogRecord};
use otel_sdk::resource::Resource;
use std::alloc::Global;
use std::test::Fail;

/// The line of [`crate::records::no_price`] under the scope `cart`.
const NO_PRICE: [&'static str; 10] = [
    "{\"resourceLogs\":[{\"resource\":{\"attributes\":[{\"key\":\"service.name\",\"value",
    "\":{\"stringValue\":\"cart\"}}]},\"scopeLogs\":[{\"logRecords\":[{\"attributes\":[{",
    "\"key\":\"item\",\"value\":{\"intValue\":\"7\"}},{\"key\":\"code.file.path\",\"value\":",
    "{\"stringValue\":\"src/price.rs\"}},{\"key\":\"code.line.number\",\"value\":{\"intVa",
    "lue\":\"41\"}},{\"key\":\"code.namespace\",\"value\":{\"stringValue\":\"cart::price\"",
    "}},{\"key\":\"log.target\",\"value\":{\"stringValue\":\"cart::price\"}}],\"body\":{\"s",
    "tringValue\":\"no price for \\\"7\\\"\"},\"flags\":3,\"observedTimeUnixNano\":\"17600",
    "00000038001000\",\"severityNumber\":17,\"severityText\":\"ERROR\",\"spanId\":\"a000",
    "000000000003\",\"timeUnixNano\":\"1760000000038000000\",\"traceId\":\"4bf92f3577b3",
    "4da6a3ce929d0e0e4736\"}],\"scope\":{\"name\":\"cart\"}}]}]}",
];

// The text of a record with only this body.
fn with_body(alloc: Global, body: AnyValue) -> Result<String, Fail> {
    let mut record = SdkLogRecord::new(alloc);
    record.set_body(body);
    text_of(alloc, record)
}

#[test]
fn a_record_with_the_ids_of_its_span(rt: HostRuntime) -> Result<(), Fail> {
    let alloc = rt.alloc();
    let batch = [under(no_price(alloc)?, scope(alloc, "cart")?)];
    let text = logs_text(alloc, &cart_service(alloc)?, &batch)?;
    let mut wanted = String::new(alloc);
    for piece in NO_PRICE {
        wanted.push_str(piece)?;
    }
    assert_eq!(rt; text.as_str(), wanted.as_str());
    Ok(())
}

#[test]
fn what_is_not_given_is_left_out(rt: HostRuntime) -> Result<(), Fail> {
    let alloc = rt.alloc();
    let nothing = text_of(alloc, SdkLogRecord::new(alloc))?;
    assert_eq!(rt; nothing.as_str(), "{}");
    let mut record = SdkLogRecord::new(alloc);
    record.set_observed_timestamp(5);
    let moment = text_of(alloc, record)?;
    assert_eq!(rt; moment.as_str(), "{\"observedTimeUnixNano\":\"5\"}");
    Ok(())
}

#[test]
fn what_is_given_is_written_though_it_is_empty(rt: HostRuntime) -> Result<(), Fail> {
    let alloc = rt.alloc();
    let mut record = SdkLogRecord::new(alloc);
    record.set_timestamp(0);
    record.set_observed_timestamp(0);
    record.set_event_name("");
    record.set_severity_text("");
    record.set_target(StringValue::from(""));
    record.set_body(AnyValue::from(""));
    let text = text_of(alloc, record)?;
    assert_eq!(rt;
        text.as_str(),
        "{\"attributes\":[{\"key\":\"log.target\",\"value\":{\"stringValue\":\"\"}}],\"body\":{\"stringValue\":\"\"},\"eventName\":\"\",\"observedTimeUnixNano\":\"0\",\"severityText\":\"\",\"timeUnixNano\":\"0\"}"
    );
    Ok(())
}

#[test]
fn severities_by_their_numbers(rt: HostRuntime) -> Result<(), Fail> {
    let alloc = rt.alloc();
    let rows = [
        (Severity::Trace, "{\"severityNumber\":1}"),
        (Severity::Trace2, "{\"severityNumber\":2}"),
        (Severity::Trace3, "{\"severityNumber\":3}"),
        (Severity::Trace4, "{\"severityNumber\":4}"),
        (Severity::Debug, "{\"severityNumber\":5}"),
        (Severity::Debug2, "{\"severityNumber\":6}"),
        (Severity::Debug3, "{\"severityNumber\":7}"),
        (Severity::Debug4, "{\"severityNumber\":8}"),
        (Severity::Info, "{\"severityNumber\":9}"),
        (Severity::Info2, "{\"severityNumber\":10}"),
        (Severity::Info3, "{\"severityNumber\":11}"),
        (Severity::Info4, "{\"severityNumber\":12}"),
        (Severity::Warn, "{\"severityNumber\":13}"),
        (Severity::Warn2, "{\"severityNumber\":14}"),
        (Severity::Warn3, "{\"severityNumber\":15}"),
        (Severity::Warn4, "{\"severityNumber\":16}"),
        (Severity::Error, "{\"severityNumber\":17}"),
        (Severity::Error2, "{\"severityNumber\":18}"),
        (Severity::Error3, "{\"severityNumber\":19}"),
        (Severity::Error4, "{\"severityNumber\":20}"),
        (Severity::Fatal, "{\"severityNumber\":21}"),
        (Severity::Fatal2, "{\"severityNumber\":22}"),
        (Severity::Fatal3, "{\"severityNumber\":23}"),
        (Severity::Fatal4, "{\"severityNumber\":24}"),
    ];
    for (severity, wanted) in rows {
        let mut record = SdkLogRecord::new(alloc);
        record.set_severity_number(severity);
        let text = text_of(alloc, record)?;
        assert_eq!(rt; text.as_str(), wanted);
    }
    Ok(())
}

#[test]
fn bodies_by_their_cases(rt: HostRuntime) -> Result<(), Fail> {
    let alloc = rt.alloc();
    let rows = [
        (
            AnyValue::Int(i64::MAX),
            "{\"intValue\":\"9223372036854775807\"}",
        ),
        (
            AnyValue::Int(i64::MIN),
            "{\"intValue\":\"-9223372036854775808\"}",
        ),
        (AnyValue::Int(0), "{\"intValue\":\"0\"}"),
        (AnyValue::Boolean(false), "{\"boolValue\":false}"),
        (AnyValue::from(""), "{\"stringValue\":\"\"}"),
        (
            AnyValue::from("\u{10ffff}\n"),
            "{\"stringValue\":\"\u{10ffff}\\n\"}",
        ),
        (
            AnyValue::bytes(alloc, b"\xff\xfe")?,
            "{\"bytesValue\":\"//4=\"}",
        ),
        (
            AnyValue::bytes(alloc, b"\xfb\xff\xbf")?,
            "{\"bytesValue\":\"+/+/\"}",
        ),
        (AnyValue::bytes(alloc, b"a")?, "{\"bytesValue\":\"YQ==\"}"),
        (AnyValue::bytes(alloc, b"")?, "{\"bytesValue\":\"\"}"),
        (
            AnyValue::list(alloc, Vec::new(alloc))?,
            "{\"arrayValue\":{\"values\":[]}}",
        ),
        (
            AnyValue::map(alloc, Vec::new(alloc))?,
            "{\"kvlistValue\":{\"values\":[]}}",
        ),
    ];
    for (body, wanted) in rows {
        let text = with_body(alloc, body)?;
        let wanted = format!(in alloc; "{{\"body\":{wanted}}}")?;
        assert_eq!(rt; text.as_str(), wanted.as_str());
    }
    Ok(())
}

#[test]
fn trees_nest(rt: HostRuntime) -> Result<(), Fail> {
    let alloc = rt.alloc();
    let numbers = AnyValue::list(alloc, vec![in alloc; AnyValue::Int(1), AnyValue::Int(-2)]?)?;
    let inner = AnyValue::map(alloc, vec![in alloc; (Key::from(""), numbers)]?)?;
    let pairs = vec![in alloc;
        (Key::from("b"), AnyValue::Int(1)),
        (Key::from("c"), inner),
        (Key::from("a"), AnyValue::from("x")),
        (Key::from("b"), AnyValue::bytes(alloc, b"\x00")?),
    ]?;
    let text = with_body(alloc, AnyValue::map(alloc, pairs)?)?;
    assert_eq!(rt;
        text.as_str(),
        "{\"body\":{\"kvlistValue\":{\"values\":[{\"key\":\"a\",\"value\":{\"stringValue\":\"x\"}},{\"key\":\"b\",\"value\":{\"bytesValue\":\"AA==\"}},{\"key\":\"c\",\"value\":{\"kvlistValue\":{\"values\":[{\"key\":\"\",\"value\":{\"arrayValue\":{\"values\":[{\"intValue\":\"1\"},{\"intValue\":\"-2\"}]}}}]}}}]}}}"
    );
    Ok(())
}

#[test]
fn attributes_are_trees_too(rt: HostRuntime) -> Result<(), Fail> {
    let alloc = rt.alloc();
    let mut record = SdkLogRecord::new(alloc);
    let nothing = AnyValue::list(alloc, Vec::new(alloc))?;
    record.add_attribute(alloc, Key::from(""), nothing)?;
    record.add_attribute(alloc, Key::from("k"), AnyValue::Boolean(true))?;
    record.dropped_attributes_count = u32::MAX;
    let text = text_of(alloc, record)?;
    assert_eq!(rt;
        text.as_str(),
        "{\"attributes\":[{\"key\":\"\",\"value\":{\"arrayValue\":{\"values\":[]}}},{\"key\":\"k\",\"value\":{\"boolValue\":true}}],\"droppedAttributesCount\":4294967295}"
    );
    Ok(())
}

#[test]
fn a_target_beside_an_attribute_with_its_key(rt: HostRuntime) -> Result<(), Fail> {
    let alloc = rt.alloc();
    let mut record = SdkLogRecord::new(alloc);
    record.set_target(StringValue::from("t"));
    record.add_attribute(alloc, Key::from("log.target"), AnyValue::Int(1))?;
    record.add_attribute(alloc, Key::from("k"), AnyValue::Int(2))?;
    let text = text_of(alloc, record)?;
    assert_eq!(rt;
        text.as_str(),
        "{\"attributes\":[{\"key\":\"log.target\",\"value\":{\"intValue\":\"1\"}},{\"key\":\"k\",\"value\":{\"intValue\":\"2\"}}]}"
    );
    Ok(())
}

#[test]
fn a_span_without_its_flags(rt: HostRuntime) -> Result<(), Fail> {
    let alloc = rt.alloc();
    let mut record = SdkLogRecord::new(alloc);
    record.set_trace_context(TraceId::from(7), SpanId::from(10), None);
    record.set_timestamp(u64::MAX);
    let text = text_of(alloc, record)?;
    assert_eq!(rt;
        text.as_str(),
        "{\"spanId\":\"000000000000000a\",\"timeUnixNano\":\"18446744073709551615\",\"traceId\":\"00000000000000000000000000000007\"}"
    );
    Ok(())
}

#[test]
fn scopes_of_records_stand_as_they_first_appear(rt: HostRuntime) -> Result<(), Fail> {
    let alloc = rt.alloc();
    let batch: [LogData; 3] = [
        observed(alloc, 1, scope(alloc, "x")?),
        observed(alloc, 2, scope(alloc, "y")?),
        observed(alloc, 3, scope(alloc, "x")?),
    ];
    let resource = Resource::builder_empty(alloc)
        .with_schema_url(StringValue::from("u"))
        .build();
    let text = logs_text(alloc, &resource, &batch)?;
    assert_eq!(rt;
        text.as_str(),
        "{\"resourceLogs\":[{\"resource\":{},\"schemaUrl\":\"u\",\"scopeLogs\":[{\"logRecords\":[{\"observedTimeUnixNano\":\"1\"},{\"observedTimeUnixNano\":\"3\"}],\"scope\":{\"name\":\"x\"}},{\"logRecords\":[{\"observedTimeUnixNano\":\"2\"}],\"scope\":{\"name\":\"y\"}}]}]}"
    );
    Ok(())
}
