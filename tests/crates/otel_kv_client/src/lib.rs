//! The spans and headers of a client that traces by the API alone, and a program that runs it.
#![tactic(auto)]

// Depends on: otel_propagators otel_otlp otel_sdk otel_waterfall

mod program;

use opentelemetry::propagation::PropagationError;
use opentelemetry::trace::{LocalTracing, NoopSource, SpanKind, Status, Tracing};
use otel_kv_client::{Client, Found, Headers, Server};
use otel_propagators::W3cPropagator;
use otel_sdk::trace::{
    Build, Exports, FinishedSpans, InMemorySpanExporter, SpanData, TracingBuilder, WithExporter,
};
use std::alloc::{AllocError, Global};
use std::collections::HashMap;
use std::fmt;
use std::test::Fail;

/// A server that knows one key, and refuses another. It keeps the last `traceparent`.
#[derive(Drop)]
struct Known {
    alloc: Global,
    parent: String,
}

/// Why it gave no answer.
#[derive(Debug, Drop)]
enum Refusal {
    Key,
    Other,
}

impl fmt::Display for Refusal {
    fn fmt<W: fmt::Write>(&self, f: &mut fmt::Formatter<W>) -> fmt::Result {
        match self {
            Refusal::Key => f.write_str("no such place"),
            Refusal::Other => f.write_str("other"),
        }
    }
}

impl From<AllocError> for Refusal {
    fn from(_error: AllocError) -> Refusal {
        Refusal::Other
    }
}

impl From<PropagationError> for Refusal {
    fn from(_error: PropagationError) -> Refusal {
        Refusal::Other
    }
}

impl Server for Known {
    type Error = Refusal;

    fn answer(&mut self, key: &str, value: Option<&str>, sent: &Headers) -> Found<Known> {
        if let Some(parent) = sent.get("traceparent") {
            self.parent = parent.clone()?;
        }
        if key == "nowhere" {
            return Err(Refusal::Key);
        }
        match value {
            Some(value) => Ok(Some(String::from_str(self.alloc, value)?)),
            None => Ok(None),
        }
    }
}

fn client(alloc: Global) -> Result<Client<W3cPropagator, Known>, AllocError> {
    Ok(Client {
        propagator: W3cPropagator::new(alloc)?,
        server: Known {
            alloc,
            parent: String::new(alloc),
        },
    })
}

/// The attributes as `key=value`, each after a space.
fn attributes(alloc: Global, span: &SpanData) -> Result<String, AllocError> {
    let mut shown = String::new(alloc);
    for attribute in span.attributes.as_slice() {
        shown.push(' ')?;
        shown.push_str(attribute.key.as_str())?;
        shown.push('=')?;
        shown.push_str(attribute.value.as_str(alloc)?.as_str())?;
    }
    Ok(shown)
}

#[test]
fn each_call_is_a_span_whose_ids_are_sent(rt: HostRuntime) -> Result<(), Fail> {
    let alloc = rt.alloc();
    let mut tracing = TracingBuilder::new(rt)
        .counted(1)
        .with_exporter(InMemorySpanExporter::new(alloc))
        .build(alloc, "tests")?;
    let mut client = client(alloc)?;
    let work = tracing.enter("work")?;
    assert!(rt; client.put(&mut tracing, "color", "blue")?.is_some());
    let put = "00-00000000000000000000000000000001-0000000000000002-01";
    assert_eq!(rt; client.server.parent.as_str(), put);
    assert!(rt; client.get(&mut tracing, "color")?.is_none());
    let get = "00-00000000000000000000000000000001-0000000000000003-01";
    assert_eq!(rt; client.server.parent.as_str(), get);
    tracing.exit(work);
    tracing.flush()?;
    let spans = tracing.processors().1.exporter().get_finished_spans()?;
    let rows = [
        (
            "PUT",
            " db.operation.name=PUT db.query.text=color db.response.returned_rows=1",
        ),
        (
            "GET",
            " db.operation.name=GET db.query.text=color db.response.returned_rows=0",
        ),
    ];
    assert_eq!(rt; spans.len(), 3);
    for (span, (name, shown)) in spans.as_slice().iter().zip(rows) {
        assert_eq!(rt; span.name.as_str(), name);
        assert!(rt; span.span_kind == SpanKind::Client);
        assert!(rt; span.status == Status::Unset);
        assert_eq!(rt; attributes(alloc, span)?.as_str(), shown);
    }
    Ok(())
}

#[test]
fn an_error_is_recorded_in_its_span(rt: HostRuntime) -> Result<(), Fail> {
    let alloc = rt.alloc();
    let mut tracing = TracingBuilder::new(rt)
        .counted(1)
        .with_exporter(InMemorySpanExporter::new(alloc))
        .build(alloc, "tests")?;
    let mut client = client(alloc)?;
    assert!(rt; client.get(&mut tracing, "nowhere").is_err());
    tracing.flush()?;
    let spans = tracing.processors().1.exporter().get_finished_spans()?;
    assert_eq!(rt; spans.len(), 1);
    for span in spans.as_slice() {
        assert!(rt; span.status == Status::error("no such place".into()));
        assert_eq!(rt; span.events.events.len(), 1);
    }
    assert_eq!(rt; tracing.unrecorded(), 0);
    Ok(())
}

#[test]
fn untraced_it_sends_the_headers_of_the_caller(rt: HostRuntime) -> Result<(), Fail> {
    let alloc = rt.alloc();
    let mut tracing = LocalTracing::new(alloc, NoopSource::new())?;
    let parent = "00-0af7651916cd43dd8448eb211c80319c-b7ad6b7169203331-01";
    let mut headers = HashMap::new(alloc);
    headers.insert(
        String::from_str(alloc, "traceparent")?,
        String::from_str(alloc, parent)?,
    )?;
    let caller = tracing.receive(&W3cPropagator::new(alloc)?, &headers)?;
    let mut client = client(alloc)?;
    client.put(&mut tracing, "color", "blue")?;
    assert_eq!(rt; client.server.parent.as_str(), parent);
    tracing.detach(caller);
    Ok(())
}
