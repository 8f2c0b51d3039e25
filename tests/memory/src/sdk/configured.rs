//! Calls on the propagator that environment variables list.
use crate::context::contexts::remote;
use crate::lines::Lines;
use crate::propagators::carriers::{carrier, injected};
use crate::propagators::headers::{TRACE_TEXTS, carrier_of};
use crate::shown::Show;
use opentelemetry::context::Context;
use opentelemetry::propagation::TextMapPropagator;
use opentelemetry::trace::TraceState;
use otel_sdk::EnvConfig;
use otel_sdk::env::{ConfiguredPropagator, EnvPropagator};
use std::alloc::{AllocError, Global};

/// The names of the propagators.
const NAMES: [EnvPropagator; 2] = [EnvPropagator::B3, EnvPropagator::TraceContext];

/// The fields of a carrier with a text of its own, and the headers that they set.
const KEYS: [&str; 4] = ["kept", "b3", "traceparent", "tracestate"];

pub fn play<R: Print>(alloc: Global, lines: &Lines<'_, R>) {
    if lines.begin("env-propagator") {
        lines.end(of_config(alloc, lines));
    }
    if lines.begin("configured-propagator-new") {
        made(lines, ConfiguredPropagator::new(alloc, &NAMES));
    }
    if lines.begin("configured-propagator-nothing") {
        let nothing = ConfiguredPropagator::new(alloc, &[]);
        lines.free_ok("ConfiguredPropagator::new", nothing);
    }
    if lines.begin("configured-propagator-inject") {
        lines.end(inject(alloc, lines));
    }
    if lines.begin("configured-propagator-extract") {
        lines.end(extract(alloc, lines));
    }
}

/// Prints the number of fields.
fn made<R: Print>(lines: &Lines<'_, R>, made: Result<ConfiguredPropagator, AllocError>) {
    match made {
        Ok(propagator) => lines.answer(&propagator.fields().count()),
        Err(error) => lines.answer(&error),
    }
}

fn of_config<R: Print>(alloc: Global, lines: &Lines<'_, R>) -> Result<(), AllocError> {
    let config = EnvConfig::from_vars(alloc, &[])?;
    made(lines, config.propagator(alloc));
    Ok(())
}

fn inject<R: Print>(alloc: Global, lines: &Lines<'_, R>) -> Result<(), AllocError> {
    let propagator = ConfiguredPropagator::new(alloc, &NAMES)?;
    let context = Context::new().with_remote_span_context(alloc, remote(1, TraceState::NONE))?;
    let mut carrier = carrier(alloc)?;
    let answer = propagator.inject_context(&context, &mut carrier);
    injected(lines, answer, &carrier, &KEYS);
    Ok(())
}

fn extract<R: Print>(alloc: Global, lines: &Lines<'_, R>) -> Result<(), AllocError> {
    let propagator = ConfiguredPropagator::new(alloc, &NAMES)?;
    let carrier = carrier_of(alloc, &TRACE_TEXTS)?;
    match propagator.extract_with_context(alloc, &Context::new(), &carrier) {
        Ok(context) => lines.answer(&Show(context.span_context())),
        Err(error) => lines.answer(&error),
    }
    Ok(())
}
