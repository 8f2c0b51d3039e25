//! Calls on the propagator of B3.
use crate::context::contexts::remote;
use crate::lines::Lines;
use crate::propagators::carriers::{carrier, injected};
use crate::propagators::headers::carrier_of;
use crate::shown::Show;
use opentelemetry::Key;
use opentelemetry::context::Context;
use opentelemetry::logs::AnyValue;
use opentelemetry::propagation::TextMapPropagator;
use opentelemetry::trace::TraceState;
use otel_propagators::B3Propagator;
use std::alloc::{AllocError, Global};

/// The fields of a carrier with a text of its own, and the headers that each form sets.
const SINGLE_KEYS: [&str; 2] = ["kept", "b3"];

const MULTI_KEYS: [&str; 4] = ["kept", "x-b3-traceid", "x-b3-spanid", "x-b3-sampled"];

const DEFERRED_KEYS: [&str; 3] = ["kept", "x-b3-traceid", "x-b3-spanid"];

/// Headers of each form, for debug.
const SINGLE_TEXTS: [(&str, &str); 1] = [(
    "b3",
    "00000000000000000000000000000001-0000000000000002-d",
)];

const MULTI_TEXTS: [(&str, &str); 3] = [
    ("x-b3-traceid", "0000000000000001"),
    ("x-b3-spanid", "0000000000000002"),
    ("x-b3-flags", "1"),
];

/// A header without a state.
const DEFERRED_TEXTS: [(&str, &str); 1] = [(
    "b3",
    "00000000000000000000000000000001-0000000000000002",
)];

/// Headers without a span.
const NO_SPAN: [(&str, &str); 1] = [("b3", "0")];

pub fn play<R: Print>(alloc: Global, lines: &Lines<'_, R>) {
    if lines.begin("b3-single") {
        made(lines, B3Propagator::single(alloc));
    }
    if lines.begin("b3-multi") {
        made(lines, B3Propagator::multi(alloc));
    }
    if lines.begin("b3-single-inject") {
        lines.end(inject_remote(alloc, lines, true));
    }
    if lines.begin("b3-multi-inject") {
        lines.end(inject_remote(alloc, lines, false));
    }
    if lines.begin("b3-single-deferred-inject") {
        lines.end(inject_deferred(alloc, lines, true));
    }
    if lines.begin("b3-multi-deferred-inject") {
        lines.end(inject_deferred(alloc, lines, false));
    }
    if lines.begin("b3-single-extract") {
        lines.end(extract(alloc, lines, &SINGLE_TEXTS));
    }
    if lines.begin("b3-multi-extract") {
        lines.end(extract(alloc, lines, &MULTI_TEXTS));
    }
    if lines.begin("b3-deferred-extract") {
        lines.end(extract(alloc, lines, &DEFERRED_TEXTS));
    }
    if lines.begin("b3-no-span-extract") {
        lines.end(extract(alloc, lines, &NO_SPAN));
    }
}

fn made<R: Print>(lines: &Lines<'_, R>, made: Result<B3Propagator, AllocError>) {
    match made {
        Ok(propagator) => lines.answer(&propagator.fields().count()),
        Err(error) => lines.answer(&error),
    }
}

fn inject<R: Print>(
    alloc: Global,
    lines: &Lines<'_, R>,
    single: bool,
    context: &Context,
    multi_keys: &[&str],
) -> Result<(), AllocError> {
    let propagator = if single {
        B3Propagator::single(alloc)?
    } else {
        B3Propagator::multi(alloc)?
    };
    let keys: &[&str] = if single { &SINGLE_KEYS } else { multi_keys };
    let mut carrier = carrier(alloc)?;
    let answer = propagator.inject_context(context, &mut carrier);
    injected(lines, answer, &carrier, keys);
    Ok(())
}

fn inject_remote<R: Print>(
    alloc: Global,
    lines: &Lines<'_, R>,
    single: bool,
) -> Result<(), AllocError> {
    let context = Context::new().with_remote_span_context(alloc, remote(1, TraceState::NONE))?;
    inject(alloc, lines, single, &context, &MULTI_KEYS)
}

fn inject_deferred<R: Print>(
    alloc: Global,
    lines: &Lines<'_, R>,
    single: bool,
) -> Result<(), AllocError> {
    let headers = carrier_of(alloc, &DEFERRED_TEXTS)?;
    let propagator = B3Propagator::single(alloc)?;
    match propagator.extract_with_context(alloc, &Context::new(), &headers) {
        Ok(context) => inject(alloc, lines, single, &context, &DEFERRED_KEYS),
        Err(_) => Err(AllocError),
    }
}

/// Extracts into a context with an entry.
fn extract<R: Print>(
    alloc: Global,
    lines: &Lines<'_, R>,
    texts: &[(&str, &str)],
) -> Result<(), AllocError> {
    let propagator = B3Propagator::single(alloc)?;
    let carrier = carrier_of(alloc, texts)?;
    let given = Context::new().with_value(alloc, Key::from("k"), AnyValue::from("v"))?;
    match propagator.extract_with_context(alloc, &given, &carrier) {
        Ok(context) => lines.answer(&Show(context.span_context())),
        Err(error) => lines.answer(&error),
    }
    Ok(())
}
