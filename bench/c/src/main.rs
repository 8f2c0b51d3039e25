//! Reads contexts from headers and writes them to headers with the calls that `crates/otel_c`
//! makes, without its handles.
//!
//! Standard input is one line, `NAME TIMES`: `extract` or `inject`, and how many times it is done.
//! The output is the headers to which the last context is written.
#![tactic(auto)]

use http_header::{HeaderMap, HeaderName, HeaderValue};
use opentelemetry::Context;
use opentelemetry::propagation::TextMapPropagator;
use otel_http::{HeaderExtractor, HeaderInjector};
use otel_propagators::{BaggagePropagator, TraceContextPropagator};
use std::alloc::{AllocError, Global};
use std::io::{self, Read};

/// The maximum length of the line that is read.
const ROOM: usize = 128;

const HEADERS: [(&'static str, &'static str); 3] = [
    (
        "traceparent",
        "00-0af7651916cd43dd8448eb211c80319c-b7ad6b7169203331-01",
    ),
    ("tracestate", "congo=t61rcWkgMzE,rojo=00f067aa0ba902b7"),
    (
        "baggage",
        "userId=alice,serverNode=DF%2028,isProduction=false",
    ),
];

fn append(
    alloc: Global,
    headers: &mut HeaderMap,
    name: &str,
    value: &str,
) -> Result<(), AllocError> {
    let name = HeaderName::from_bytes(alloc, name.as_bytes()).map_err(|_| AllocError)?;
    let value = HeaderValue::from_bytes(alloc, value.as_bytes()).map_err(|_| AllocError)?;
    headers.append(name, value).map_err(|_| AllocError)?;
    Ok(())
}

fn received(alloc: Global) -> Result<HeaderMap, AllocError> {
    let mut headers = HeaderMap::new(alloc);
    for (name, value) in HEADERS {
        append(alloc, &mut headers, name, value)?;
    }
    Ok(headers)
}

fn read<P: TextMapPropagator>(
    alloc: Global,
    propagator: &P,
    context: &Context,
    extractor: &HeaderExtractor,
) -> Result<Context, AllocError> {
    propagator
        .extract_with_context(alloc, context, extractor)
        .map_err(|_| AllocError)
}

/// Returns a copy of the context with the values of the headers.
#[inline(never)]
fn extract(alloc: Global, headers: &HeaderMap, context: &Context) -> Result<Context, AllocError> {
    let extractor = HeaderExtractor::new(alloc, headers)?;
    let traced = read(
        alloc,
        &TraceContextPropagator::new(alloc)?,
        context,
        &extractor,
    )?;
    read(alloc, &BaggagePropagator::new(alloc)?, &traced, &extractor)
}

fn write<P: TextMapPropagator>(
    propagator: &P,
    context: &Context,
    injector: &mut HeaderInjector,
) -> Result<(), AllocError> {
    propagator
        .inject_context(context, injector)
        .map_err(|_| AllocError)
}

/// Sets the headers that carry the context.
#[inline(never)]
fn inject(
    alloc: Global,
    context: &Context,
    injector: &mut HeaderInjector,
) -> Result<(), AllocError> {
    write(&TraceContextPropagator::new(alloc)?, context, injector)?;
    write(&BaggagePropagator::new(alloc)?, context, injector)
}

/// Reads the headers `times` times, each time into an empty context. Returns the last one.
#[inline(never)]
fn extract_again(alloc: Global, headers: &HeaderMap, times: u64) -> Result<Context, AllocError> {
    let mut context = Context::new();
    for _ in 0..times {
        context = extract(alloc, headers, &Context::new())?;
    }
    Ok(context)
}

/// Writes the context `times` times, each time to empty headers.
#[inline(never)]
fn inject_again(alloc: Global, context: &Context, times: u64) -> Result<(), AllocError> {
    for _ in 0..times {
        let mut injector = HeaderInjector::new(HeaderMap::new(alloc));
        inject(alloc, context, &mut injector)?;
    }
    Ok(())
}

/// Returns the resulting context of the operation that the line requests.
fn play(alloc: Global, line: &str) -> Result<Context, AllocError> {
    let headers = received(alloc)?;
    let (name, times) = line.split_once(' ').unwrap_or(("", ""));
    let times = times.parse::<u64>().unwrap_or(0);
    if name == "extract" {
        return extract_again(alloc, &headers, times);
    }
    let context = extract(alloc, &headers, &Context::new())?;
    if name == "inject" {
        inject_again(alloc, &context, times)?;
    }
    Ok(context)
}

fn main(rt: HostRuntime) -> io::Result<()> {
    let alloc = rt.alloc();
    let mut room = [0u8; ROOM];
    let count = rt.stdin().read(&mut room)?;
    let context = play(
        alloc,
        str::from_utf8(&room[..count]).unwrap_or("").trim_end(),
    )?;
    let mut injector = HeaderInjector::new(HeaderMap::new(alloc));
    inject(alloc, &context, &mut injector)?;
    for (name, _) in HEADERS {
        if let Some(value) = injector.headers.get(name) {
            println!(rt; "{name}: {}", value.to_str().unwrap_or(""))?;
        }
    }
    Ok(())
}
