//! Requests as bytes, which the kit's HTTP/1.1 reads and writes.
use bytes::BytesMut;
use http_header::{HeaderMap, HeaderName, HeaderValue};
use http1::{BodySize, Client, Event, Limits, Server};
use http1_typed::{header_list, header_map};
use httparse::spans::EMPTY_HEADER_SPAN;
use opentelemetry::Context;
use opentelemetry::propagation::{PropagationError, TextMapPropagator};
use otel_http::{HeaderExtractor, HeaderInjector};
use otel_propagators::{BaggagePropagator, TraceContextPropagator};
use std::alloc::Global;
use std::hash::RandomState;
use std::test::Fail;

/// Adds the values read from the received headers by both propagators to the headers to send.
fn forward(
    alloc: Global,
    received: &HeaderMap,
    sent: HeaderMap,
) -> Result<HeaderMap, PropagationError> {
    let trace = TraceContextPropagator::new(alloc)?;
    let baggage = BaggagePropagator::new(alloc)?;
    let extractor = HeaderExtractor::new(alloc, received)?;
    let given = trace.extract_with_context(alloc, &Context::new(), &extractor)?;
    let context = baggage.extract_with_context(alloc, &given, &extractor)?;
    let mut injector = HeaderInjector::new(sent);
    trace.inject_context(&context, &mut injector)?;
    baggage.inject_context(&context, &mut injector)?;
    Ok(injector.into_headers())
}

#[test]
fn a_request_goes_on(rt: HostRuntime) -> Result<(), Fail> {
    let alloc = rt.alloc();
    let head = BytesMut::copy_from_slice(
        alloc,
        b"GET / HTTP/1.1\r\nHost: h\r\n\
        TraceParent: 00-0af7651916cd43dd8448eb211c80319c-b7ad6b7169203331-01\r\n\
        TRACESTATE: a=1\r\nX-Id: \xff\r\ntracestate: b=2\r\n\
        Baggage: k=\xc3\xa9\r\nbaggage: j=w\r\nbaggage: i=%C3%A9\r\n\r\n",
    )?
    .freeze()?;
    let mut spans = [EMPTY_HEADER_SPAN; 16];
    let mut server = Server::new(Limits::default());
    let Event::Head(request) = server.read(head.as_slice(), &mut spans)?.event else {
        panic!(rt; "no head");
    };
    let keys = RandomState::new(&rt)?;
    let received = header_map(alloc, keys, &head, &spans[..request.headers])?;
    assert_eq!(rt; received.len(), 8);

    let mut sent = HeaderMap::new(alloc);
    sent.append(
        HeaderName::from_static("host"),
        HeaderValue::from_static("g"),
    )?;
    let sent = forward(alloc, &received, sent)?;
    let mut out = Vec::new(alloc);
    Client::new(Limits::default()).write_request(
        &mut out,
        b"GET",
        b"/",
        &header_list(alloc, &sent)?,
        BodySize::Empty,
    )?;
    assert_eq!(rt;
        out.as_slice(),
        b"GET / HTTP/1.1\r\nhost: g\r\n\
        traceparent: 00-0af7651916cd43dd8448eb211c80319c-b7ad6b7169203331-01\r\n\
        tracestate: a=1,b=2\r\nbaggage: j=w,i=%C3%A9\r\n\r\n"
            .as_slice()
    );
    Ok(())
}

#[test]
fn a_folded_line_is_refused_by_the_reader(rt: HostRuntime) -> Result<(), Fail> {
    let head = b"GET / HTTP/1.1\r\nHost: h\r\ntracestate: a=1,\r\n b=2\r\n\r\n";
    let mut spans = [EMPTY_HEADER_SPAN; 4];
    let mut server = Server::new(Limits::default());
    assert!(rt; server.read(head.as_slice(), &mut spans).is_err());
    Ok(())
}
