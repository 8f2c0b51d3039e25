//! The headers that the service sends on, for good and bad headers, and its spans. A header that
//! can't be read is no failure. The service starts a new trace (W3C trace-context-2, section 4.3),
//! or keeps the parts that it can read.
use crate::service::{Call, Service, logger};
use crate::spans::server_span;
use http::{HeaderMap, HeaderName, HeaderValue, Method};
use opentelemetry::Value;
use opentelemetry::trace::{SpanId, SpanKind, Status};
use otel_sdk::EnvConfig;
use otel_sdk::trace::{
    Build, ExportSchedule, Exports, FinishedSpans, InMemorySpanExporter, SpanData, SystemClock,
    TracingBuilder, WithExporter,
};
use std::alloc::{AllocError, Global};
use std::process::Abort;
use std::test::Fail;

/// The written lines, the error of a request of another path, and the exported spans.
#[derive(Drop)]
struct Outcome {
    lines: String,
    error: String,
    spans: Vec<SpanData>,
}

/// Answers the requests in the lines and, if `fails`, a request of a path that has no cart, with
/// counted ids and a counted clock.
fn answered(rt: HostRuntime, given: &[u8], fails: bool) -> anyhow::Result<Outcome> {
    let alloc = rt.alloc();
    let env = EnvConfig::from_vars(alloc, &[])?;
    let call = Call {
        rt,
        env: &env,
        propagator: &env.propagator(alloc)?,
        log: &logger(rt, &env)?,
        is_lines: true,
        to: "memory",
    };
    let tracing = TracingBuilder::new(rt)
        .counted(1)
        .with_exporter(InMemorySpanExporter::new(alloc))
        .build(alloc, "test")?;
    let mut service = Service {
        call: &call,
        tracing,
        schedule: ExportSchedule::new(&SystemClock::new(rt), &env.span_batches),
        is_told: false,
    };
    let mut lines = Vec::new(alloc);
    service.answer_lines(given, &mut lines)?;
    let mut error = String::new(alloc);
    if fails {
        if let Err(why) = service.answer(&Method::POST, "/other", &HeaderMap::new(alloc)) {
            error = why.to_string(alloc)?;
        }
    }
    service.tracing.flush()?;
    Ok(Outcome {
        lines: String::from_str(alloc, str::from_utf8(&lines).unwrap_or(""))?,
        error,
        spans: service
            .tracing
            .processors()
            .1
            .exporter()
            .get_finished_spans()?,
    })
}

/// Asserts the lines that were written.
fn sends(rt: &impl Abort, found: &anyhow::Result<Outcome>, given: &[u8], wanted: &str) {
    match found {
        Ok(found) => assert_eq!(rt; found.lines.as_str(), wanted, "{given:?}"),
        Err(error) => assert!(rt; false, "{given:?}: {error}"),
    }
}

/// The headers in the examples of W3C trace-context-2 and of W3C baggage.
#[test]
fn the_examples_of_the_standards_are_carried_on(rt: HostRuntime) -> Result<(), Fail> {
    let given = b"traceparent: 00-0af7651916cd43dd8448eb211c80319c-00f067aa0ba902b7-01
tracestate: rojo=00f067aa0ba902b7,congo=t61rcWkgMzE
baggage: userId=alice,serverNode=DF%2028,isProduction=false
";
    let wanted = "traceparent: 00-0af7651916cd43dd8448eb211c80319c-0000000000000003-01
tracestate: rojo=00f067aa0ba902b7,congo=t61rcWkgMzE
baggage: userId=alice,serverNode=DF%2028,isProduction=false
";
    sends(&rt, &answered(rt, given, false), given, wanted);
    Ok(())
}

/// The headers that are sent on if the received headers name no span and no baggage.
const ANEW: &str = "traceparent: 00-00000000000000000000000000000001-0000000000000003-01
tracestate: 
baggage: 
";

/// Headers that name no span.
const NAMELESS: &[&str] = &[
    "",
    "\n\n",
    "traceparent\n",
    "traceparent 00-0af7651916cd43dd8448eb211c80319c-00f067aa0ba902b7-01\n",
    "tracestate: rojo=00f067aa0ba902b7\n",
    // Another version, capital digits, an id of zeros, a digit too few, and two of them.
    "traceparent: 01-0af7651916cd43dd8448eb211c80319c-00f067aa0ba902b7-01\ntracestate: a=1\n",
    "traceparent: 00-0AF7651916CD43DD8448EB211C80319C-00f067aa0ba902b7-01\n",
    "traceparent: 00-00000000000000000000000000000000-00f067aa0ba902b7-01\n",
    "traceparent: 00-0af7651916cd43dd8448eb211c80319c-0000000000000000-01\n",
    "traceparent: 00-0af7651916cd43dd8448eb211c80319c-00f067aa0ba902b-01\n",
    "traceparent: 00-0af7651916cd43dd8448eb211c80319c-00f067aa0ba902b7-01
traceparent: 00-0af7651916cd43dd8448eb211c80319c-00f067aa0ba902b7-01
",
];

#[test]
fn a_trace_starts_anew_where_the_headers_name_no_span(rt: HostRuntime) -> Result<(), Fail> {
    for given in NAMELESS {
        let given = given.as_bytes();
        sends(&rt, &answered(rt, given, false), given, ANEW);
    }
    Ok(())
}

/// Headers beside the `traceparent` of the standard's example, not sampled, and the trace state and
/// the baggage that are sent on.
const BESIDE: &[(&str, &str, &str)] = &[
    ("", "", ""),
    ("TraceState: a=1\nTRACESTATE:b=2\n", "a=1,b=2", ""),
    ("tracestate: a=1\ntracestate: a=2\n", "a=1", ""),
    // A trace state that violates the grammar doesn't affect the `traceparent` beside it.
    ("tracestate: a=1,b\n", "", ""),
    ("tracestate: A=1\n", "", ""),
    // The members of a baggage that can be read stay.
    ("baggage: a=1, x ,b=%ff,c=2\n", "", "a=1,c=2"),
    ("baggage: a=1;m\nBaggage: b=2\n", "", "a=1;m,b=2"),
    ("host: example\nno colon\n: no name\n", "", ""),
    // Blanks are spaces and tabs, and lines end at a line feed or at a carriage return and a line
    // feed (RFC 9110, section 5.5; RFC 9112, section 2.2).
    ("tracestate:\t a=1 \t\r\nbaggage:b=2\r\n", "a=1", "b=2"),
    // No header has a control character, and text that isn't ASCII can't be read.
    ("tracestate: a=1\u{b}b\nbaggage: b=2\u{a0}\n", "", ""),
    // A name with a blank before the colon is no header (RFC 9112, section 5.1), and no line is
    // continued in the next one.
    ("tracestate : a=1\nbaggage\t: b=2\n", "", ""),
    (" tracestate: a=1\n", "", ""),
    ("tracestate: a=1\n ,b=2: c\n", "a=1", ""),
    ("baggage: a=1", "", "a=1"),
];

#[test]
fn what_can_be_read_beside_a_span_is_carried_on(rt: HostRuntime) -> Result<(), Fail> {
    let alloc = rt.alloc();
    for (beside, trace_state, baggage) in BESIDE {
        let given = format!(in alloc;
            "TraceParent: 00-0af7651916cd43dd8448eb211c80319c-00f067aa0ba902b7-00 \n{beside}"
        )?;
        let wanted = format!(in alloc;
            "traceparent: 00-0af7651916cd43dd8448eb211c80319c-0000000000000003-00
tracestate: {trace_state}
baggage: {baggage}
"
        )?;
        let given = given.as_bytes();
        sends(&rt, &answered(rt, given, false), given, wanted.as_str());
    }
    Ok(())
}

/// Requests are apart by empty lines, and so are their answers.
#[test]
fn each_request_of_the_input_is_answered(rt: HostRuntime) -> Result<(), Fail> {
    let given = b"baggage: a=1\n\n\nbaggage: b=2\r\n\r\nbaggage: c=3";
    let wanted = "traceparent: 00-00000000000000000000000000000001-0000000000000003-01
tracestate: 
baggage: a=1

traceparent: 00-00000000000000000000000000000002-0000000000000006-01
tracestate: 
baggage: b=2

traceparent: 00-00000000000000000000000000000003-0000000000000009-01
tracestate: 
baggage: c=3
";
    sends(&rt, &answered(rt, given, false), given, wanted);
    Ok(())
}

/// The request of the standards' example: three spans, the children first, as they end first.
#[test]
fn a_request_has_a_span_with_two_children(rt: HostRuntime) -> Result<(), Fail> {
    let given = b"traceparent: 00-0af7651916cd43dd8448eb211c80319c-00f067aa0ba902b7-01
baggage: userId=alice
";
    let Ok(found) = answered(rt, given, false) else {
        assert!(rt; false, "not answered");
        return Ok(());
    };
    let [load, price, serve] = found.spans.as_slice() else {
        assert!(rt; false, "other spans");
        return Ok(());
    };
    assert_eq!(rt; load.name.as_str(), "load cart");
    assert_eq!(rt; price.name.as_str(), "GET");
    assert!(rt; price.span_kind == SpanKind::Client);
    assert_eq!(rt; serve.name.as_str(), "GET /cart");
    assert!(rt; serve.span_kind == SpanKind::Server);
    assert!(rt; serve.parent_span_is_remote);
    assert_eq!(rt; serve.parent_span_id, SpanId::from(0x00f0_67aa_0ba9_02b7));
    for child in [load, price] {
        assert_eq!(rt; child.parent_span_id, serve.span_context.span_id());
        assert!(rt; !child.parent_span_is_remote);
        assert!(rt; child.start_time < child.end_time && child.end_time < serve.end_time);
    }
    assert_eq!(rt; load.events.events.len(), 1);
    let [user] = load.attributes.as_slice() else {
        assert!(rt; false, "no user");
        return Ok(());
    };
    assert_eq!(rt; user.key.as_str(), "user.id");
    assert!(rt; matches!(&user.value, Value::String(name) if name.as_str() == "alice"));
    assert_eq!(rt; serve.events.events.len(), 0);
    Ok(())
}

/// A request that fails after one that doesn't.
#[test]
fn the_span_of_a_request_that_fails_shows_its_error(rt: HostRuntime) -> Result<(), Fail> {
    let Ok(found) = answered(rt, b"", true) else {
        assert!(rt; false, "not answered");
        return Ok(());
    };
    assert_eq!(rt; found.error.as_str(), "no price for /other");
    let [_, _, served, load, price, failed] = found.spans.as_slice() else {
        assert!(rt; false, "other spans");
        return Ok(());
    };
    assert!(rt; matches!(&served.status, Status::Unset));
    assert!(rt; matches!(&failed.status, Status::Error { .. }));
    assert!(rt; matches!(&price.status, Status::Error { .. }));
    let [event] = failed.events.events.as_slice() else {
        assert!(rt; false, "other events");
        return Ok(());
    };
    assert_eq!(rt; event.name.as_str(), "exception");
    assert_eq!(rt; load.parent_span_id, failed.span_context.span_id());
    assert_eq!(rt; price.parent_span_id, failed.span_context.span_id());
    Ok(())
}

/// The attributes of a span, as lines `KEY: VALUE`.
fn attributes(alloc: Global, span: &SpanData) -> Result<String, AllocError> {
    let mut lines = String::new(alloc);
    for attribute in &span.attributes {
        let value = attribute.value.as_str(alloc)?;
        lines.push_str(format!(in alloc; "{}: {}\n", attribute.key, &*value)?.as_str())?;
    }
    Ok(lines)
}

/// The attributes of the spans of a request and of one that fails, by the semantic conventions
/// ("HTTP spans").
#[test]
fn the_spans_have_the_attributes_of_http(rt: HostRuntime) -> Result<(), Fail> {
    let given = b"Host: shop.example:8080\n";
    let Ok(found) = answered(rt, given, true) else {
        assert!(rt; false, "not answered");
        return Ok(());
    };
    let wanted = [
        (
            1,
            "http.request.method: GET
url.full: http://prices:8080/cart
server.address: prices
server.port: 8080
http.response.status_code: 200
",
        ),
        (
            2,
            "http.request.method: GET
url.scheme: http
url.path: /cart
http.route: /cart
server.address: shop.example
server.port: 8080
http.response.status_code: 200
",
        ),
        (
            4,
            "http.request.method: GET
url.full: http://prices:8080/other
server.address: prices
server.port: 8080
http.response.status_code: 404
error.type: 404
",
        ),
        (
            5,
            "http.request.method: POST
url.scheme: http
url.path: /other
http.response.status_code: 500
error.type: 500
",
        ),
    ];
    for (place, lines) in wanted {
        let Some(span) = found.spans.get(place) else {
            assert!(rt; false, "no span {place}");
            return Ok(());
        };
        assert_eq!(rt; attributes(rt.alloc(), span)?.as_str(), lines);
    }
    Ok(())
}

/// A method and a route, and the name of the span and its method.
const NAMED: &[(&str, Option<&'static str>, &str, &str)] = &[
    ("GET", Some("/cart"), "GET /cart", "GET"),
    ("GET", None, "GET", "GET"),
    ("DELETE", Some("/cart/:id"), "DELETE /cart/:id", "DELETE"),
    ("get", Some("/cart"), "HTTP /cart", "_OTHER"),
    ("BREW", None, "HTTP", "_OTHER"),
];

#[test]
fn a_server_span_is_named_after_its_method_and_route(rt: HostRuntime) -> Result<(), Fail> {
    let alloc = rt.alloc();
    for (method, route, name, known) in NAMED {
        let Ok(method) = Method::from_bytes(alloc, method.as_bytes()) else {
            assert!(rt; false, "no method");
            return Ok(());
        };
        let span = server_span(alloc, &method, "/", *route, &HeaderMap::new(alloc))?;
        assert_eq!(rt; span.name.as_str(), *name);
        let Some([method, ..]) = span.attributes.as_ref().map(|them| them.as_slice()) else {
            assert!(rt; false, "no attributes");
            return Ok(());
        };
        assert!(rt; matches!(&method.value, Value::String(text) if text.as_str() == *known));
    }
    Ok(())
}

/// No spans are exported for a caller whose trace isn't sampled.
#[test]
fn a_trace_that_is_not_sampled_is_not_exported(rt: HostRuntime) -> Result<(), Fail> {
    let given = b"traceparent: 00-0af7651916cd43dd8448eb211c80319c-00f067aa0ba902b7-00\n";
    match answered(rt, given, false) {
        Ok(found) => assert!(rt; found.spans.is_empty()),
        Err(_) => assert!(rt; false, "not answered"),
    }
    Ok(())
}
