//! Lines that aren't read, each with the place of its fault.
use otel_otlp::read_traces;
use std::alloc::Global;
use std::test::Fail;

// The text of the error for the line.
fn error_of(alloc: Global, line: &str) -> Result<String, Fail> {
    match read_traces(alloc, line) {
        Ok(_) => Ok(String::from_str(alloc, "read")?),
        Err(error) => Ok(format!(in alloc; "{error}")?),
    }
}

#[test]
fn lines_that_are_not_json(rt: HostRuntime) -> Result<(), Fail> {
    let alloc = rt.alloc();
    for line in ["", "{", "{}{}", "{\"resourceSpans\":[{\"resource\":", "not"] {
        assert_eq!(rt; error_of(alloc, line)?.as_str(), "not JSON");
    }
    Ok(())
}

#[test]
fn lines_that_nest_too_deep(rt: HostRuntime) -> Result<(), Fail> {
    let alloc = rt.alloc();
    for (depth, wanted) in [(126usize, "read"), (127, "not JSON"), (100_000, "not JSON")] {
        let mut line = String::from_str(alloc, "{\"a\":")?;
        for _ in 0..depth {
            line.push_str("[")?;
        }
        for _ in 0..depth {
            line.push_str("]")?;
        }
        line.push_str("}")?;
        assert_eq!(rt; error_of(alloc, line.as_str())?.as_str(), wanted);
    }
    Ok(())
}

#[test]
fn faults_outside_of_spans(rt: HostRuntime) -> Result<(), Fail> {
    let alloc = rt.alloc();
    let rows = [
        ("[]", "line: expected an object"),
        ("{\"resourceSpans\":{}}", "resourceSpans: expected a list"),
        (
            "{\"resourceSpans\":[{},7]}",
            "resourceSpans[1]: expected an object",
        ),
        (
            "{\"resourceSpans\":[{\"scopeSpans\":[{},{},{\"scope\":{\"name\":1}}]}]}",
            "resourceSpans[0].scopeSpans[2].scope.name: expected a text",
        ),
        (
            "{\"resourceSpans\":[{\"scopeSpans\":[{\"schemaUrl\":[]}]}]}",
            "resourceSpans[0].scopeSpans[0].schemaUrl: expected a text",
        ),
    ];
    for (line, wanted) in rows {
        assert_eq!(rt; error_of(alloc, line)?.as_str(), wanted);
    }
    Ok(())
}

#[test]
fn faults_of_spans(rt: HostRuntime) -> Result<(), Fail> {
    let alloc = rt.alloc();
    let trace = "\"traceId\":\"00000000000000000000000000000007\"";
    let ids = "\"traceId\":\"00000000000000000000000000000007\",\"spanId\":\"0000000000000009\",";
    let rows = [
        ("", "", ".traceId: expected 32 hexadecimal digits"),
        (
            "",
            "\"traceId\":\"0000000000000000000000000000007\"",
            ".traceId: expected 32 hexadecimal digits",
        ),
        (
            "",
            "\"traceId\":\"0000000000000000000000000000000g\"",
            ".traceId: expected 32 hexadecimal digits",
        ),
        ("", trace, ".spanId: expected 16 hexadecimal digits"),
        (
            ids,
            "\"parentSpanId\":\"1\"",
            ".parentSpanId: expected 16 hexadecimal digits",
        ),
        (
            ids,
            "\"startTimeUnixNano\":\"-1\"",
            ".startTimeUnixNano: expected a number of 64 bits",
        ),
        (
            ids,
            "\"endTimeUnixNano\":18446744073709551616",
            ".endTimeUnixNano: expected a number of 64 bits",
        ),
        (
            ids,
            "\"flags\":4294967296",
            ".flags: expected a number of 32 bits",
        ),
        (
            ids,
            "\"traceState\":\"a\"",
            ".traceState: expected pairs of keys and values",
        ),
        (ids, "\"name\":{}", ".name: expected a text"),
        (ids, "\"kind\":6", ".kind: expected the kind of a span"),
        (
            ids,
            "\"kind\":\"SERVER\"",
            ".kind: expected the kind of a span",
        ),
        (ids, "\"status\":2", ".status: expected an object"),
        (
            ids,
            "\"status\":{\"code\":3}",
            ".status.code: expected the code of a status",
        ),
        (
            ids,
            "\"events\":[{},{\"timeUnixNano\":true}]",
            ".events[1].timeUnixNano: expected a number of 64 bits",
        ),
        (
            ids,
            "\"links\":[{}]",
            ".links[0].traceId: expected 32 hexadecimal digits",
        ),
        (
            ids,
            "\"attributes\":[1]",
            ".attributes[0]: expected an object",
        ),
        (
            ids,
            "\"attributes\":[{\"value\":{\"intValue\":\"x\"}}]",
            ".attributes[0].value.intValue: expected an integer of 64 bits",
        ),
        (
            ids,
            "\"attributes\":[{\"value\":{\"boolValue\":1}}]",
            ".attributes[0].value.boolValue: expected true or false",
        ),
        (
            ids,
            "\"attributes\":[{\"value\":{\"arrayValue\":{\"values\":[{\"intValue\":1},{\"intValue\":1.5}]}}}]",
            ".attributes[0].value.arrayValue.values[1].intValue: expected an integer of 64 bits",
        ),
    ];
    for (before, member, wanted) in rows {
        let line = format!(in alloc;
            "{{\"resourceSpans\":[{{\"scopeSpans\":[{{\"spans\":[{{{ids}\"name\":\"good\"}},{{{before}{member}}}]}}]}}]}}"
        )?;
        let wanted = format!(in alloc; "resourceSpans[0].scopeSpans[0].spans[1]{wanted}")?;
        assert_eq!(rt; error_of(alloc, line.as_str())?.as_str(), wanted.as_str());
    }
    Ok(())
}
