//! Log records that are read: lines of the exporter, and lines of other programs.
use crate::batches::{attribute, scope};
use crate::records::{cart_service, no_price, observed, under};
use opentelemetry::logs::{AnyValue, LogRecord, Severity};
use opentelemetry::trace::{SpanId, TraceFlags, TraceId};
use opentelemetry::{InstrumentationScope, Key, StringValue, Value};
use otel_otlp::{logs_text, read_logs, read_resource_logs};
use otel_sdk::logs::{LogData, SdkLogRecord};
use otel_sdk::resource::Resource;
use std::alloc::{AllocError, Global};
use std::rc::Rc;
use std::test::Fail;

// Whether both records were emitted in the same span, or neither in one.
fn is_active_same(a: &SdkLogRecord, b: &SdkLogRecord) -> bool {
    match (&a.trace_context, &b.trace_context) {
        (Some(a), Some(b)) => {
            a.trace_id == b.trace_id
                && a.span_id == b.span_id
                && a.trace_flags.map(|flags: TraceFlags| flags.to_u8())
                    == b.trace_flags.map(|flags: TraceFlags| flags.to_u8())
        }
        (None, None) => true,
        _ => false,
    }
}

// Whether both records have the same data and scopes with the same texts.
fn is_same(a: &LogData, b: &LogData) -> bool {
    let (x, y) = (&a.record, &b.record);
    x.event_name == y.event_name
        && x.target == y.target
        && x.timestamp == y.timestamp
        && x.observed_timestamp == y.observed_timestamp
        && x.severity_text == y.severity_text
        && x.severity_number == y.severity_number
        && x.body == y.body
        && x.attributes == y.attributes
        && x.dropped_attributes_count == y.dropped_attributes_count
        && is_active_same(x, y)
        && *a.instrumentation_scope == *b.instrumentation_scope
}

// A tree with each case, also within lists and maps.
fn tree(alloc: Global) -> Result<AnyValue, AllocError> {
    let numbers = AnyValue::list(
        alloc,
        vec![in alloc; AnyValue::Int(i64::MIN), AnyValue::Int(i64::MAX)]?,
    )?;
    let nothing = AnyValue::list(alloc, Vec::new(alloc))?;
    let pairs = vec![in alloc;
        (Key::from("b"), AnyValue::Boolean(false)),
        (Key::from(""), numbers),
        (Key::from("a"), AnyValue::bytes(alloc, b"\xfb\xff\xbf\x00")?),
        (Key::from("\u{e9}"), nothing),
        (Key::from("m"), AnyValue::map(alloc, Vec::new(alloc))?),
    ]?;
    let map = AnyValue::map(alloc, pairs)?;
    AnyValue::list(
        alloc,
        vec![in alloc; map, AnyValue::from("a \"b\"\n\u{1F44D}")]?,
    )
}

// A record in which each part differs from its default.
fn rich(alloc: Global) -> Result<LogData, AllocError> {
    let own = InstrumentationScope::builder(StringValue::from("rich"))
        .with_version(StringValue::from(""))
        .with_schema_url(StringValue::from("u"))
        .with_attributes(vec![in alloc; attribute("of", Value::from("scope"))]?)
        .build(alloc)?;
    let mut record = SdkLogRecord::new(alloc);
    record.set_event_name("e");
    record.set_target(StringValue::from(""));
    record.set_timestamp(0);
    record.set_observed_timestamp(u64::MAX);
    record.set_severity_text("");
    record.set_severity_number(Severity::Fatal4);
    record.set_body(tree(alloc)?);
    record.add_attribute(alloc, Key::from("k"), tree(alloc)?)?;
    record.add_attribute(alloc, Key::from(""), AnyValue::Int(0))?;
    record.dropped_attributes_count = u32::MAX;
    record.set_trace_context(TraceId::from(u128::MAX), SpanId::from(u64::MAX), None);
    Ok(under(record, Rc::new(alloc, own)?))
}

#[test]
fn what_the_exporter_writes_of_records_is_read_back(rt: HostRuntime) -> Result<(), Fail> {
    let alloc = rt.alloc();
    let cart = scope(alloc, "cart")?;
    let mut batch = vec![in alloc; under(no_price(alloc)?, cart.clone()?), rich(alloc)?]?;
    batch.push(observed(alloc, 5, cart))?;
    batch.push(under(SdkLogRecord::new(alloc), scope(alloc, "")?))?;
    let line = logs_text(alloc, &cart_service(alloc)?, batch.as_slice())?;
    let read = read_logs(alloc, line.as_str())?;
    // The records of a scope are together, and scopes in the order of their first records.
    let places = [0usize, 2, 1, 3];
    assert_eq!(rt; read.len(), places.len());
    for (index, place) in places.iter().enumerate() {
        assert!(rt; is_same(&read.as_slice()[index], &batch.as_slice()[*place]));
    }
    Ok(())
}

#[test]
fn each_severity_is_read_back(rt: HostRuntime) -> Result<(), Fail> {
    let alloc = rt.alloc();
    let rows = [
        (Severity::Trace, "TRACE"),
        (Severity::Trace2, "TRACE2"),
        (Severity::Trace3, "TRACE3"),
        (Severity::Trace4, "TRACE4"),
        (Severity::Debug, "DEBUG"),
        (Severity::Debug2, "DEBUG2"),
        (Severity::Debug3, "DEBUG3"),
        (Severity::Debug4, "DEBUG4"),
        (Severity::Info, "INFO"),
        (Severity::Info2, "INFO2"),
        (Severity::Info3, "INFO3"),
        (Severity::Info4, "INFO4"),
        (Severity::Warn, "WARN"),
        (Severity::Warn2, "WARN2"),
        (Severity::Warn3, "WARN3"),
        (Severity::Warn4, "WARN4"),
        (Severity::Error, "ERROR"),
        (Severity::Error2, "ERROR2"),
        (Severity::Error3, "ERROR3"),
        (Severity::Error4, "ERROR4"),
        (Severity::Fatal, "FATAL"),
        (Severity::Fatal2, "FATAL2"),
        (Severity::Fatal3, "FATAL3"),
        (Severity::Fatal4, "FATAL4"),
    ];
    for (severity, name) in rows {
        let number = severity.number();
        for text in [
            format!(in alloc; "{number}")?,
            format!(in alloc; "\"SEVERITY_NUMBER_{name}\"")?,
        ] {
            let text = text.as_str();
            let read = record_of(
                alloc,
                format!(in alloc; "\"severityNumber\":{text}")?.as_str(),
            )?;
            assert!(rt; read.severity_number == Some(severity));
        }
    }
    for text in ["0", "\"SEVERITY_NUMBER_UNSPECIFIED\"", "null"] {
        let read = record_of(
            alloc,
            format!(in alloc; "\"severityNumber\":{text}")?.as_str(),
        )?;
        assert!(rt; read.severity_number.is_none());
    }
    Ok(())
}

// The record of a line that has one record with these members.
fn record_of(alloc: Global, members: &str) -> Result<SdkLogRecord, Fail> {
    let line = format!(in alloc;
        "{{\"resourceLogs\":[{{\"scopeLogs\":[{{\"logRecords\":[{{{members}}}]}}]}}]}}"
    )?;
    let mut read = read_logs(alloc, line.as_str())?;
    Ok(read.pop().ok_or("no record")?.record)
}

// The body of this JSON.
fn body_of(alloc: Global, value: &str) -> Result<AnyValue, Fail> {
    let record = record_of(alloc, format!(in alloc; "\"body\":{value}")?.as_str())?;
    Ok(record.body.ok_or("no body")?)
}

#[test]
fn absent_members_of_records(rt: HostRuntime) -> Result<(), Fail> {
    let alloc = rt.alloc();
    for members in [
        "",
        "\"timeUnixNano\":null,\"body\":null,\"traceId\":null,\"attributes\":null",
        "\"traceId\":\"\",\"spanId\":\"\",\"flags\":1,\"time_unix_nano\":7,\"other\":[{}]",
    ] {
        let record = record_of(alloc, members)?;
        assert!(rt; record.timestamp.is_none());
        assert!(rt; record.observed_timestamp.is_none());
        assert!(rt; record.severity_number.is_none());
        assert!(rt; record.severity_text.is_none());
        assert!(rt; record.event_name.is_none());
        assert!(rt; record.target.is_none());
        assert!(rt; record.body.is_none());
        assert!(rt; record.attributes.is_empty());
        assert_eq!(rt; record.dropped_attributes_count, 0);
        assert!(rt; record.trace_context.is_none());
    }
    Ok(())
}

#[test]
fn the_ids_of_a_record(rt: HostRuntime) -> Result<(), Fail> {
    let alloc = rt.alloc();
    let trace = "\"traceId\":\"0AF7651916CD43DD8448EB211C80319C\"";
    let span = "\"spanId\":\"00f067aa0BA902b7\"";
    let id = TraceId::from(0x0af7651916cd43dd8448eb211c80319c);
    let rows = [
        (
            format!(in alloc; "{trace},{span},\"flags\":259")?,
            id,
            0x00f067aa0ba902b7,
            Some(3),
        ),
        (format!(in alloc; "{trace},\"spanId\":\"\"")?, id, 0, None),
        (
            format!(in alloc; "{span},\"flags\":\"0\"")?,
            TraceId::INVALID,
            0x00f067aa0ba902b7,
            Some(0),
        ),
    ];
    for (members, trace, span, flags) in rows {
        let record = record_of(alloc, members.as_str())?;
        let active = record.trace_context.ok_or("no span")?;
        assert!(rt; active.trace_id == trace);
        assert!(rt; active.span_id == SpanId::from(span));
        assert!(rt; active.trace_flags.map(|flags: TraceFlags| flags.to_u8()) == flags);
    }
    Ok(())
}

#[test]
fn times_are_numbers_or_texts(rt: HostRuntime) -> Result<(), Fail> {
    let alloc = rt.alloc();
    for text in ["18446744073709551615", "\"18446744073709551615\""] {
        let members = format!(in alloc; "\"timeUnixNano\":{text},\"observedTimeUnixNano\":0")?;
        let record = record_of(alloc, members.as_str())?;
        assert!(rt; record.timestamp == Some(u64::MAX));
        assert!(rt; record.observed_timestamp == Some(0));
    }
    Ok(())
}

#[test]
fn bodies_of_any_kind(rt: HostRuntime) -> Result<(), Fail> {
    let alloc = rt.alloc();
    let one = AnyValue::list(alloc, vec![in alloc; AnyValue::Int(1), AnyValue::from("")]?)?;
    let pairs = vec![in alloc;
        (Key::from(""), AnyValue::from("")),
        (Key::from("a"), AnyValue::Int(2)),
    ]?;
    let map = AnyValue::map(alloc, pairs)?;
    let rows = [
        ("{\"intValue\":5}", AnyValue::Int(5)),
        ("{\"intValue\":\"-5\"}", AnyValue::Int(-5)),
        ("{\"boolValue\":true}", AnyValue::Boolean(true)),
        ("{\"stringValue\":\"5\"}", AnyValue::from("5")),
        ("{}", AnyValue::from("")),
        ("{\"other\":1,\"stringValue\":null}", AnyValue::from("")),
        ("{\"doubleValue\":1.5}", AnyValue::from("1.5")),
        ("{\"doubleValue\":3}", AnyValue::from("3")),
        ("{\"doubleValue\":\"NaN\"}", AnyValue::from("NaN")),
        (
            "{\"arrayValue\":{}}",
            AnyValue::list(alloc, Vec::new(alloc))?,
        ),
        ("{\"arrayValue\":{\"values\":[{\"intValue\":1},{}]}}", one),
        (
            "{\"kvlistValue\":{}}",
            AnyValue::map(alloc, Vec::new(alloc))?,
        ),
        (
            "{\"kvlistValue\":{\"values\":[{\"key\":\"a\",\"value\":{\"intValue\":1}},{},{\"key\":\"a\",\"value\":{\"intValue\":2}}]}}",
            map,
        ),
    ];
    for (value, wanted) in rows {
        assert!(rt; body_of(alloc, value)? == wanted);
    }
    Ok(())
}

#[test]
fn bytes_of_either_alphabet(rt: HostRuntime) -> Result<(), Fail> {
    let alloc = rt.alloc();
    for (text, wanted) in [
        ("//4=", b"\xff\xfe" as &[u8]),
        ("//4", b"\xff\xfe"),
        ("__4=", b"\xff\xfe"),
        ("__4", b"\xff\xfe"),
        ("", b""),
        ("AA==", b"\x00"),
        ("-_-_", b"\xfb\xff\xbf"),
        ("+/+/", b"\xfb\xff\xbf"),
    ] {
        let value = format!(in alloc; "{{\"bytesValue\":\"{text}\"}}")?;
        assert!(rt; body_of(alloc, value.as_str())? == AnyValue::bytes(alloc, wanted)?);
    }
    Ok(())
}

#[test]
fn targets_are_last_attributes(rt: HostRuntime) -> Result<(), Fail> {
    let alloc = rt.alloc();
    let target = "{\"key\":\"log.target\",\"value\":{\"stringValue\":\"t\"}}";
    let number = "{\"key\":\"log.target\",\"value\":{\"intValue\":1}}";
    let other = "{\"key\":\"k\",\"value\":{\"stringValue\":\"t\"}}";
    for (list, wanted, left) in [
        (format!(in alloc; "{target}")?, Some("t"), 0usize),
        (format!(in alloc; "{other},{target}")?, Some("t"), 1),
        (format!(in alloc; "{number},{target}")?, Some("t"), 1),
        (format!(in alloc; "{target},{other}")?, None, 2),
        (format!(in alloc; "{other},{number}")?, None, 2),
    ] {
        let members = format!(in alloc; "\"attributes\":[{list}]")?;
        let record = record_of(alloc, members.as_str())?;
        assert_eq!(rt; record.attributes.len(), left);
        match (record.target, wanted) {
            (Some(target), Some(wanted)) => assert_eq!(rt; target.as_str(), wanted),
            (None, None) => {}
            _ => return Err(Fail::from("another target")),
        }
    }
    Ok(())
}

#[test]
fn records_of_resources_and_scopes(rt: HostRuntime) -> Result<(), Fail> {
    let alloc = rt.alloc();
    let line =
        "{\"resourceLogs\":[{\"resource\":{\"attributes\":[{\"key\":\"service.name\",\"value\":{\"stringValue\":\"a\"}}]},\"scopeLogs\":[{\"scope\":{\"name\":\"x\"},\"logRecords\":[{\"timeUnixNano\":1},{\"timeUnixNano\":2}]},{},{\"scope\":{\"name\":\"y\"},\"logRecords\":[{\"timeUnixNano\":3}]}]},{},{\"scopeLogs\":[{\"logRecords\":[{\"timeUnixNano\":4}]}]}]}";
    let groups = read_resource_logs(alloc, line)?;
    assert_eq!(rt; groups.len(), 3);
    for (index, count) in [3usize, 0, 1].iter().enumerate() {
        assert_eq!(rt; groups.as_slice()[index].records.len(), *count);
    }
    assert!(rt; groups.as_slice()[0].resource.get("service.name") == Some(&Value::from("a")));
    assert!(rt; groups.as_slice()[2].resource.is_empty());
    let read = read_logs(alloc, line)?;
    for (index, name) in ["x", "x", "y", ""].iter().enumerate() {
        let it = &read.as_slice()[index];
        assert!(rt; it.record.timestamp == Some(index as u64 + 1));
        assert_eq!(rt; it.instrumentation_scope.name(), *name);
    }
    assert!(rt; read_logs(alloc, "{\"resourceSpans\":[{}]}")?.is_empty());
    Ok(())
}

#[test]
fn the_resource_of_records_is_read_back(rt: HostRuntime) -> Result<(), Fail> {
    let alloc = rt.alloc();
    let resource = Resource::builder_empty(alloc)
        .with_attribute(attribute("k", Value::from(1)))?
        .with_schema_url(StringValue::from("u"))
        .build();
    let line = logs_text(alloc, &resource, &[rich(alloc)?])?;
    let read = read_resource_logs(alloc, line.as_str())?;
    assert_eq!(rt; read.len(), 1);
    let found = &read.as_slice()[0].resource;
    assert!(rt; found.get("k") == Some(&Value::from(1)));
    assert!(rt; found.schema_url() == Some("u"));
    Ok(())
}
