//! Lines of log records that aren't read, each with the place of its fault, and lines that nest.
use crate::batches::scope;
use crate::records::under;
use opentelemetry::Key;
use opentelemetry::logs::AnyValue;
use otel_otlp::{logs_text, read_logs};
use otel_sdk::logs::SdkLogRecord;
use otel_sdk::resource::Resource;
use std::alloc::{AllocError, Global};
use std::test::Fail;

// The text of the error for the line.
fn error_of(alloc: Global, line: &str) -> Result<String, Fail> {
    match read_logs(alloc, line) {
        Ok(_) => Ok(String::from_str(alloc, "read")?),
        Err(error) => Ok(format!(in alloc; "{error}")?),
    }
}

// A line with an empty record, and one with these members.
fn line_of(alloc: Global, members: &str) -> Result<String, AllocError> {
    format!(in alloc;
        "{{\"resourceLogs\":[{{\"scopeLogs\":[{{}},{{\"logRecords\":[{{}},{{{members}}}]}}]}}]}}"
    )
}

#[test]
fn faults_outside_of_records(rt: HostRuntime) -> Result<(), Fail> {
    let alloc = rt.alloc();
    let rows = [
        ("", "not JSON"),
        ("{\"resourceLogs\":[{\"resource\":", "not JSON"),
        ("[]", "line: expected an object"),
        ("{\"resourceLogs\":{}}", "resourceLogs: expected a list"),
        (
            "{\"resourceLogs\":[{},7]}",
            "resourceLogs[1]: expected an object",
        ),
        (
            "{\"resourceLogs\":[{\"resource\":{\"attributes\":[{\"key\":1}]}}]}",
            "resourceLogs[0].resource.attributes[0].key: expected a text",
        ),
        (
            "{\"resourceLogs\":[{\"scopeLogs\":[{},{\"scope\":{\"version\":1}}]}]}",
            "resourceLogs[0].scopeLogs[1].scope.version: expected a text",
        ),
        (
            "{\"resourceLogs\":[{\"scopeLogs\":[{\"logRecords\":[7]}]}]}",
            "resourceLogs[0].scopeLogs[0].logRecords[0]: expected an object",
        ),
    ];
    for (line, wanted) in rows {
        assert_eq!(rt; error_of(alloc, line)?.as_str(), wanted);
    }
    Ok(())
}

#[test]
fn faults_of_records(rt: HostRuntime) -> Result<(), Fail> {
    let alloc = rt.alloc();
    let rows = [
        (
            "\"traceId\":\"1\"",
            "traceId: expected 32 hexadecimal digits",
        ),
        (
            "\"traceId\":\"0000000000000000000000000000000g\"",
            "traceId: expected 32 hexadecimal digits",
        ),
        ("\"traceId\":7", "traceId: expected 32 hexadecimal digits"),
        (
            "\"spanId\":\"00000000000000001\"",
            "spanId: expected 16 hexadecimal digits",
        ),
        ("\"spanId\":[]", "spanId: expected 16 hexadecimal digits"),
        (
            "\"spanId\":\"0000000000000001\",\"flags\":4294967296",
            "flags: expected a number of 32 bits",
        ),
        ("\"flags\":-1", "flags: expected a number of 64 bits"),
        (
            "\"timeUnixNano\":\"-1\"",
            "timeUnixNano: expected a number of 64 bits",
        ),
        (
            "\"observedTimeUnixNano\":18446744073709551616",
            "observedTimeUnixNano: expected a number of 64 bits",
        ),
        (
            "\"severityNumber\":25",
            "severityNumber: expected a severity",
        ),
        (
            "\"severityNumber\":-1",
            "severityNumber: expected a severity",
        ),
        (
            "\"severityNumber\":\"INFO\"",
            "severityNumber: expected a severity",
        ),
        (
            "\"severityNumber\":{}",
            "severityNumber: expected a severity",
        ),
        ("\"severityText\":1", "severityText: expected a text"),
        ("\"eventName\":{}", "eventName: expected a text"),
        (
            "\"droppedAttributesCount\":\"x\"",
            "droppedAttributesCount: expected a number of 64 bits",
        ),
        ("\"attributes\":{}", "attributes: expected a list"),
        ("\"attributes\":[{},1]", "attributes[1]: expected an object"),
        (
            "\"attributes\":[{\"key\":1}]",
            "attributes[0].key: expected a text",
        ),
        (
            "\"attributes\":[{\"value\":1}]",
            "attributes[0].value: expected an object",
        ),
        ("\"body\":7", "body: expected an object"),
    ];
    for (members, wanted) in rows {
        let line = line_of(alloc, members)?;
        let wanted = format!(in alloc; "resourceLogs[0].scopeLogs[1].logRecords[1].{wanted}")?;
        assert_eq!(rt; error_of(alloc, line.as_str())?.as_str(), wanted.as_str());
    }
    Ok(())
}

#[test]
fn faults_of_trees(rt: HostRuntime) -> Result<(), Fail> {
    let alloc = rt.alloc();
    let rows = [
        ("{\"arrayValue\":5}", ".arrayValue: expected an object"),
        ("{\"arrayValue\":[]}", ".arrayValue: expected an object"),
        (
            "{\"arrayValue\":{\"values\":5}}",
            ".arrayValue.values: expected a list",
        ),
        (
            "{\"arrayValue\":{\"values\":[{},7]}}",
            ".arrayValue.values[1]: expected an object",
        ),
        ("{\"kvlistValue\":\"\"}", ".kvlistValue: expected an object"),
        (
            "{\"kvlistValue\":{\"values\":{}}}",
            ".kvlistValue.values: expected a list",
        ),
        (
            "{\"kvlistValue\":{\"values\":[{\"key\":\"a\"},{\"key\":2}]}}",
            ".kvlistValue.values[1].key: expected a text",
        ),
        (
            "{\"kvlistValue\":{\"values\":[{\"value\":{\"arrayValue\":{\"values\":[{\"intValue\":1.5}]}}}]}}",
            ".kvlistValue.values[0].value.arrayValue.values[0].intValue: expected an integer of 64 bits",
        ),
        ("{\"boolValue\":1}", ".boolValue: expected true or false"),
        (
            "{\"intValue\":\"x\"}",
            ".intValue: expected an integer of 64 bits",
        ),
        ("{\"stringValue\":5}", ".stringValue: expected a text"),
        ("{\"doubleValue\":true}", ".doubleValue: expected a number"),
        ("{\"doubleValue\":{}}", ".doubleValue: expected a number"),
        (
            "{\"bytesValue\":5}",
            ".bytesValue: expected bytes in base64",
        ),
        (
            "{\"bytesValue\":\"a\"}",
            ".bytesValue: expected bytes in base64",
        ),
        (
            "{\"bytesValue\":\"+_+_\"}",
            ".bytesValue: expected bytes in base64",
        ),
        (
            "{\"bytesValue\":\"AA=A\"}",
            ".bytesValue: expected bytes in base64",
        ),
    ];
    for (value, wanted) in rows {
        let place = "resourceLogs[0].scopeLogs[1].logRecords[1]";
        let line = line_of(alloc, format!(in alloc; "\"body\":{value}")?.as_str())?;
        let of_body = format!(in alloc; "{place}.body{wanted}")?;
        assert_eq!(rt; error_of(alloc, line.as_str())?.as_str(), of_body.as_str());
        let pair = format!(in alloc; "\"attributes\":[{{}},{{\"value\":{value}}}]")?;
        let line = line_of(alloc, pair.as_str())?;
        let of_attribute = format!(in alloc; "{place}.attributes[1].value{wanted}")?;
        assert_eq!(rt;
            error_of(alloc, line.as_str())?.as_str(),
            of_attribute.as_str()
        );
    }
    Ok(())
}

// This number of lists within each other, around the value.
fn in_lists(alloc: Global, levels: usize, value: &str) -> Result<String, AllocError> {
    let mut text = String::new(alloc);
    for _ in 0..levels {
        text.push_str("{\"arrayValue\":{\"values\":[")?;
    }
    text.push_str(value)?;
    for _ in 0..levels {
        text.push_str("]}}")?;
    }
    Ok(text)
}

// The body of the second record of the line, within this number of lists.
fn inner_body(alloc: Global, value: &str, levels: usize) -> Result<AnyValue, Fail> {
    let line = line_of(alloc, format!(in alloc; "\"body\":{value}")?.as_str())?;
    let mut read = read_logs(alloc, line.as_str())?;
    let mut tree = read.pop().and_then(|it| it.record.body).ok_or("no body")?;
    for _ in 0..levels {
        let AnyValue::ListAny(items) = tree else {
            return Err(Fail::from("no list"));
        };
        let mut items = Box::into_inner(items);
        tree = items.pop().ok_or("no item")?;
    }
    Ok(tree)
}

#[test]
fn lists_and_maps_within_thirty_two_others_are_texts(rt: HostRuntime) -> Result<(), Fail> {
    let alloc = rt.alloc();
    let list = "{\"arrayValue\":{\"values\":[{\"intValue\":1}]}}";
    let map = "{\"kvlistValue\":{\"values\":[]}}";
    let within = in_lists(alloc, 31, list)?;
    let whole = inner_body(alloc, within.as_str(), 31)?;
    let one = AnyValue::list(alloc, vec![in alloc; AnyValue::Int(1)]?)?;
    assert!(rt; whole == one);
    for (value, wanted) in [
        (list, "{\"values\":[{\"intValue\":1}]}"),
        (map, "{\"values\":[]}"),
        ("{\"intValue\":\"7\"}", "7"),
    ] {
        let deep = in_lists(alloc, 32, value)?;
        match inner_body(alloc, deep.as_str(), 32)? {
            AnyValue::String(text) => assert_eq!(rt; text.as_str(), wanted),
            AnyValue::Int(7) => assert_eq!(rt; wanted, "7"),
            _ => return Err(Fail::from("another value")),
        }
    }
    // A fault at the last level has its place, too.
    let deep = in_lists(alloc, 32, "{\"arrayValue\":5}")?;
    let line = line_of(alloc, format!(in alloc; "\"body\":{deep}")?.as_str())?;
    let error = error_of(alloc, line.as_str())?;
    assert!(rt;
        error
            .as_str()
            .ends_with(".values[0].arrayValue: expected an object")
    );
    Ok(())
}

#[test]
fn bodies_that_nest_deeper_than_a_line_may(rt: HostRuntime) -> Result<(), Fail> {
    let alloc = rt.alloc();
    for (levels, wanted) in [(39usize, "read"), (40, "not JSON"), (10_000, "not JSON")] {
        let deep = in_lists(alloc, levels, "{}")?;
        let line = line_of(alloc, format!(in alloc; "\"body\":{deep}")?.as_str())?;
        assert_eq!(rt; error_of(alloc, line.as_str())?.as_str(), wanted);
    }
    Ok(())
}

#[test]
fn trees_that_the_exporter_cuts(rt: HostRuntime) -> Result<(), Fail> {
    let alloc = rt.alloc();
    let mut record = SdkLogRecord::new(alloc);
    let mut tree = AnyValue::Int(1);
    for _ in 0..40 {
        tree = AnyValue::list(alloc, vec![in alloc; tree]?)?;
    }
    record.attributes.push((Key::from("k"), tree))?;
    let resource = Resource::builder_empty(alloc).build();
    let line = logs_text(alloc, &resource, &[under(record, scope(alloc, "s")?)])?;
    let read = read_logs(alloc, line.as_str())?;
    let record = &read.as_slice()[0].record;
    assert_eq!(rt; record.dropped_attributes_count, 1);
    let mut wanted = AnyValue::from("..");
    for _ in 0..29 {
        wanted = AnyValue::list(alloc, vec![in alloc; wanted]?)?;
    }
    assert!(rt; record.attributes.as_slice()[0].1 == wanted);
    Ok(())
}
