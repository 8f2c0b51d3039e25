//! The headers of HTTP that carry a context, read and written as a service does.
use crate::operation::{Operation, Task, add, repeat};
use http_header::{HeaderMap, HeaderName, HeaderValue};
use opentelemetry::Context;
use opentelemetry::propagation::TextMapPropagator;
use otel_http::{HeaderExtractor, HeaderInjector};
use otel_propagators::{BaggagePropagator, TraceContextPropagator};
use std::alloc::{AllocError, Global};

const HEADERS: [(&'static str, &'static str); 3] = [
    (
        "traceparent",
        "00-0af7651916cd43dd8448eb211c80319c-b7ad6b7169203331-01",
    ),
    ("tracestate", "congo=t61rcWkgMzE,rojo=00f067aa0ba902b7"),
    (
        "baggage",
        "userId=alice,serverNode=DF%2028,isProduction=false",
    ),
];

pub fn play(task: &Task<'_>, alloc: Global) -> Result<Option<u64>, AllocError> {
    let propagators = Propagators {
        trace: TraceContextPropagator::new(alloc)?,
        baggage: BaggagePropagator::new(alloc)?,
    };
    let headers = received(alloc)?;
    match task.name {
        "http_extract" => {
            let reading = Reading {
                alloc,
                propagators,
                headers,
            };
            repeat(reading, task.times)
        }
        "http_inject" => {
            let context = extract(alloc, &propagators, &headers)?;
            let writing = Writing {
                alloc,
                propagators,
                context,
            };
            repeat(writing, task.times)
        }
        _ => Ok(None),
    }
}

/// The propagators of a service.
#[derive(Drop)]
struct Propagators {
    trace: TraceContextPropagator,
    baggage: BaggagePropagator,
}

fn received(alloc: Global) -> Result<HeaderMap, AllocError> {
    let mut headers = HeaderMap::new(alloc);
    for (name, value) in HEADERS {
        let name = HeaderName::from_bytes(alloc, name.as_bytes()).map_err(|_| AllocError)?;
        let value = HeaderValue::from_bytes(alloc, value.as_bytes()).map_err(|_| AllocError)?;
        headers.append(name, value).map_err(|_| AllocError)?;
    }
    Ok(headers)
}

fn read<P: TextMapPropagator>(
    alloc: Global,
    propagator: &P,
    context: &Context,
    extractor: &HeaderExtractor,
) -> Result<Context, AllocError> {
    propagator
        .extract_with_context(alloc, context, extractor)
        .map_err(|_| AllocError)
}

/// Returns a context with the values of the headers.
#[inline(never)]
fn extract(
    alloc: Global,
    propagators: &Propagators,
    headers: &HeaderMap,
) -> Result<Context, AllocError> {
    let extractor = HeaderExtractor::new(alloc, headers)?;
    let traced = read(alloc, &propagators.trace, &Context::new(), &extractor)?;
    read(alloc, &propagators.baggage, &traced, &extractor)
}

fn write<P: TextMapPropagator>(
    propagator: &P,
    context: &Context,
    injector: &mut HeaderInjector,
) -> Result<(), AllocError> {
    propagator
        .inject_context(context, injector)
        .map_err(|_| AllocError)
}

/// Returns the headers that carry the context.
#[inline(never)]
fn inject(
    alloc: Global,
    propagators: &Propagators,
    context: &Context,
) -> Result<HeaderMap, AllocError> {
    let mut injector = HeaderInjector::new(HeaderMap::new(alloc));
    write(&propagators.trace, context, &mut injector)?;
    write(&propagators.baggage, context, &mut injector)?;
    Ok(injector.into_headers())
}

#[inline(never)]
fn let_go(context: Context, sum: &mut u64) {
    let members = context.baggage().map_or(0, |baggage| baggage.len());
    let spans = usize::from(context.span_context().is_valid());
    add(sum, members.wrapping_add(spans));
}

#[inline(never)]
fn let_go_headers(headers: HeaderMap, sum: &mut u64) {
    add(sum, headers.len());
}

#[derive(Drop)]
struct Reading {
    alloc: Global,
    propagators: Propagators,
    headers: HeaderMap,
}

impl Operation for Reading {
    fn once(&mut self, sum: &mut u64) -> Result<(), AllocError> {
        let_go(extract(self.alloc, &self.propagators, &self.headers)?, sum);
        Ok(())
    }
}

#[derive(Drop)]
struct Writing {
    alloc: Global,
    propagators: Propagators,
    context: Context,
}

impl Operation for Writing {
    fn once(&mut self, sum: &mut u64) -> Result<(), AllocError> {
        let_go_headers(inject(self.alloc, &self.propagators, &self.context)?, sum);
        Ok(())
    }
}
