//! Sends spans by OTLP over HTTP.
//!
//! The arguments are the numbers of the first batch and of the one past the last, an address or a
//! folder, whose path has a `/`, and, after a folder, a list of headers if the exporter is to be made
//! from texts of environment variables. Each request has its own connection to the address, or by
//! the pipes of the folder. Without either, requests go to standard output, and responses come from
//! standard input, until no more requests can be sent. The number of each batch that has left the
//! exporter is a line on standard error.
#![tactic(auto)]

use http::{Request, Response};
use opentelemetry::trace::{
    SpanContext, SpanId, SpanKind, Status, TraceFlags, TraceId, TraceState,
};
use opentelemetry::{InstrumentationScope, StringValue};
use otel_otlp::{
    ClockCalls, FileClient, HttpClient, HttpError, OtlpHttpConfig, OtlpHttpExporter,
    OtlpHttpSpanExporter, PipeError, StreamClient, pipe_exporter,
};
use otel_sdk_base::otlp::{EnvEndpoint, EnvOtlp};
use otel_sdk_base::{Accepted, CountedClock, Exporter};
use otel_sdk_span::{SpanData, SpanEvents, SpanLinks};
use std::alloc::{AllocError, Global};
use std::hash::RandomState;
use std::io::{self, ErrorKind};
use std::net::TcpStream;
use std::rc::Rc;

/// The number of spans of a batch.
const SPANS: u64 = 25;

/// The nanoseconds of an hour.
const HOUR: u64 = 3_600_000_000_000;

type Sender<C, K> = OtlpHttpSpanExporter<C, HostRuntime, K>;

fn span(alloc: Global, number: u64) -> Result<SpanData, AllocError> {
    let (trace_id, span_id) = (TraceId::from(1), SpanId::from(number));
    let state = TraceState::NONE;
    Ok(SpanData {
        span_context: SpanContext::new(trace_id, span_id, TraceFlags::SAMPLED, false, state),
        parent_span_id: SpanId::INVALID,
        parent_span_is_remote: false,
        span_kind: SpanKind::Internal,
        name: StringValue::from("work"),
        start_time: number,
        end_time: number,
        attributes: Vec::new(alloc),
        dropped_attributes_count: 0,
        events: SpanEvents {
            events: Vec::new(alloc),
            dropped_count: 0,
        },
        links: SpanLinks {
            links: Vec::new(alloc),
            dropped_count: 0,
        },
        status: Status::Unset,
        instrumentation_scope: Rc::new(
            alloc,
            InstrumentationScope::builder(StringValue::from("s")).build(alloc)?,
        )?,
    })
}

fn batch(alloc: Global, number: u64) -> Result<Vec<SpanData>, AllocError> {
    let mut batch = Vec::new(alloc);
    for it in number * SPANS..(number + 1) * SPANS {
        batch.push(span(alloc, it + 1)?)?;
    }
    Ok(batch)
}

// Reads the numbers of the first batch and of the one past the last.
fn bounds(words: &[String]) -> io::Result<(u64, u64)> {
    let read = |place: usize| match words.get(place) {
        Some(word) => word.as_str().parse::<u64>().ok(),
        None => None,
    };
    match (read(1), read(2)) {
        (Some(first), Some(end)) => Ok((first, end)),
        _ => Err(ErrorKind::InvalidInput.into()),
    }
}

/// Sends each request over a connection of its own.
#[derive(Drop)]
struct Dial {
    rt: HostRuntime,
    keys: RandomState,
    address: String,
    sent: Accepted<Request<Vec<u8>>>,
}

impl HttpClient for Dial {
    ghost use Rattle.std.specs.Prelude.{flat_map};

    ghost sent = { λ c. flat_map (λ batch. batch) c.sent.batches };

    fn send_bytes(&mut self, request: &Request<Vec<u8>>) -> Result<Response<Vec<u8>>, HttpError> {
        self.sent = self.sent.and_one(request);
        let stream = match TcpStream::connect(&self.rt, self.address.as_str()) {
            Ok(stream) => stream,
            Err(error) => return Err(HttpError::Io(error)),
        };
        StreamClient::new(self.rt.alloc(), self.keys, &stream, &stream).send_bytes(request)
    }
}

// Creates the exporter. Its clock moves on by an hour at each reading, so it never waits.
fn exporter<C: HttpClient>(rt: HostRuntime, client: C) -> io::Result<Sender<C, CountedClock>> {
    let alloc = rt.alloc();
    let Ok(config) = OtlpHttpConfig::new(alloc) else {
        return Err(ErrorKind::OutOfMemory.into());
    };
    match OtlpHttpExporter::new(alloc, client, config, rt, CountedClock::new(HOUR)) {
        Ok(exporter) => Ok(exporter),
        Err(_) => Err(ErrorKind::OutOfMemory.into()),
    }
}

// Sends the batches, until no more requests can be sent.
fn send<C: HttpClient, K: ClockCalls>(
    rt: HostRuntime,
    exporter: &mut Sender<C, K>,
    bounds: (u64, u64),
    is_open: fn(&C) -> bool,
) -> io::Result<()> {
    let (mut number, end) = bounds;
    while number < end && is_open(exporter.client()) {
        if exporter.waiting() > 0 {
            let _ = exporter.force_flush();
        } else if exporter.export(&batch(rt.alloc(), number)?).is_err() {
            return Err(ErrorKind::OutOfMemory.into());
        }
        if exporter.waiting() == 0 {
            eprintln!(rt; "{number}")?;
            number += 1;
        }
    }
    Ok(())
}

// Sends the batches through the pipes of the folder, with these headers.
fn send_by_pipes(rt: HostRuntime, folder: &str, list: &str, bounds: (u64, u64)) -> io::Result<()> {
    let headers = StringValue::from(String::from_str(rt.alloc(), list)?);
    let otlp = EnvOtlp {
        endpoint: EnvEndpoint::Base(StringValue::from("http://localhost:4318")),
        headers,
    };
    match pipe_exporter(rt.alloc(), rt, folder, &otlp) {
        Ok(mut exporter) => send(rt, &mut exporter, bounds, |_| true),
        Err(PipeError::Keys(error)) => Err(error),
        Err(PipeError::Config(_)) => Err(ErrorKind::InvalidInput.into()),
    }
}

fn main(rt: HostRuntime) -> io::Result<()> {
    let words: Vec<String> = std::env::args(&rt)?.collect(rt.alloc())?;
    let bounds = bounds(words.as_slice())?;
    let keys = RandomState::new(&rt)?;
    if let (Some(folder), Some(list)) = (words.get(3), words.get(4)) {
        return send_by_pipes(rt, folder.as_str(), list.as_str(), bounds);
    }
    match words.get(3) {
        Some(folder) if folder.as_str().contains('/') => {
            let client = FileClient::new(rt.alloc(), keys, rt, folder.as_str())?;
            send(rt, &mut exporter(rt, client)?, bounds, |_| true)
        }
        Some(address) => {
            let client = Dial {
                rt,
                keys,
                address: address.clone()?,
                sent: Accepted::new(),
            };
            send(rt, &mut exporter(rt, client)?, bounds, |_| true)
        }
        None => {
            let client = StreamClient::new(rt.alloc(), keys, rt.stdin(), rt.stdout());
            send(
                rt,
                &mut exporter(rt, client)?,
                bounds,
                StreamClient::is_open,
            )
        }
    }
}
