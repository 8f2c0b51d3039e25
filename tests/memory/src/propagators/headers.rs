//! Calls on the propagators of the W3C headers.
use crate::context::contexts::remote;
use crate::lines::Lines;
use crate::propagators::carriers::{carrier, holds, injected};
use crate::shown::Show;
use opentelemetry::baggage::Baggage;
use opentelemetry::context::Context;
use opentelemetry::propagation::{Injector, PropagationError, TextMapPropagator};
use opentelemetry::trace::TraceState;
use opentelemetry::{Key, StringValue};
use otel_propagators::{BaggagePropagator, TraceContextPropagator, W3cPropagator};
use std::alloc::{AllocError, Global};
use std::collections::HashMap;

/// The fields of a carrier with a text of its own, and the fields that the propagators set.
pub const TRACE_KEYS: [&str; 3] = ["kept", "traceparent", "tracestate"];

const BAGGAGE_KEYS: [&str; 2] = ["kept", "baggage"];

const ALL_KEYS: [&str; 4] = ["kept", "traceparent", "tracestate", "baggage"];

/// A header of each propagator.
pub const TRACE_TEXTS: [(&str, &str); 2] = [
    (
        "traceparent",
        "00-00000000000000000000000000000001-0000000000000002-01",
    ),
    ("tracestate", "a=1,b=2"),
];

const BAGGAGE_TEXTS: [(&str, &str); 1] = [("baggage", "k=v,j=w;m")];

pub fn play<R: Print>(alloc: Global, lines: &Lines<'_, R>) {
    if lines.begin("trace-context-new") {
        match TraceContextPropagator::new(alloc) {
            Ok(propagator) => lines.answer(&propagator.fields().count()),
            Err(error) => lines.answer(&error),
        }
    }
    if lines.begin("trace-context-inject") {
        lines.end(inject_trace(alloc, lines));
    }
    if lines.begin("trace-context-inject-both") {
        lines.end(inject_both(alloc, lines));
    }
    if lines.begin("trace-context-extract") {
        lines.end(extract_trace(alloc, lines));
    }
    play_baggage(alloc, lines);
    play_all(alloc, lines);
}

fn play_baggage<R: Print>(alloc: Global, lines: &Lines<'_, R>) {
    if lines.begin("baggage-propagator-new") {
        match BaggagePropagator::new(alloc) {
            Ok(propagator) => lines.answer(&propagator.fields().count()),
            Err(error) => lines.answer(&error),
        }
    }
    if lines.begin("baggage-propagator-inject") {
        lines.end(inject_baggage(alloc, lines));
    }
    if lines.begin("baggage-propagator-extract") {
        lines.end(extract_baggage(alloc, lines));
    }
}

fn play_all<R: Print>(alloc: Global, lines: &Lines<'_, R>) {
    if lines.begin("w3c-propagator-new") {
        match W3cPropagator::new(alloc) {
            Ok(propagator) => lines.answer(&propagator.fields().count()),
            Err(error) => lines.answer(&error),
        }
    }
    if lines.begin("w3c-propagator-inject") {
        lines.end(inject_all(alloc, lines));
    }
    if lines.begin("w3c-propagator-extract") {
        lines.end(extract_all(alloc, lines));
    }
}

/// Injects into a carrier.
fn inject<R: Print>(
    alloc: Global,
    lines: &Lines<'_, R>,
    propagator: &dyn TextMapPropagator,
    context: &Context,
    keys: &[&str],
) -> Result<(), AllocError> {
    let mut carrier = carrier(alloc)?;
    let answer = propagator.inject_context(context, &mut carrier);
    injected(lines, answer, &carrier, keys);
    Ok(())
}

/// A context whose remote span has this trace state.
pub fn with_remote_span(alloc: Global, state: TraceState) -> Result<Context, AllocError> {
    Context::new().with_remote_span_context(alloc, remote(1, state))
}

/// A context whose remote span has a trace state of two members.
fn with_trace(alloc: Global) -> Result<Context, AllocError> {
    let Ok(state) = TraceState::from_str(alloc, "a=1,b=2") else {
        return Err(AllocError);
    };
    with_remote_span(alloc, state)
}

fn inject_trace<R: Print>(alloc: Global, lines: &Lines<'_, R>) -> Result<(), AllocError> {
    let propagator = TraceContextPropagator::new(alloc)?;
    let context = with_trace(alloc)?;
    inject(alloc, lines, &propagator, &context, &TRACE_KEYS)
}

/// A carrier that has a text for each header, so that to set one takes no memory.
#[derive(Drop)]
struct Prepared {
    texts: HashMap<String, String>,
}

impl Injector for Prepared {
    ghost use Rattle.opentelemetry.specs.Carrier.{map_state};

    ghost state = { λ c. map_state c.texts.entries };

    fn set(&mut self, key: &str, value: String) -> Result<(), PropagationError> {
        match self.texts.get_mut(key) {
            Some(text) => {
                *text = value;
                Ok(())
            }
            None => Err(PropagationError::Refused),
        }
    }
}

/// Both texts are made before the first is set. So an injection that runs out of memory leaves no
/// `traceparent` without its `tracestate`.
fn inject_both<R: Print>(alloc: Global, lines: &Lines<'_, R>) -> Result<(), AllocError> {
    let propagator = TraceContextPropagator::new(alloc)?;
    let context = with_trace(alloc)?;
    let texts = carrier_of(alloc, &[("traceparent", ""), ("tracestate", "")])?;
    let mut carrier = Prepared { texts };
    let answer = propagator.inject_context(&context, &mut carrier);
    let are_set = answer.is_ok();
    lines.answer_named("injected", answer);
    let has_parent = !holds(&carrier.texts, "traceparent", "");
    let has_state = !holds(&carrier.texts, "tracestate", "");
    lines.due(has_parent == are_set && has_state == are_set);
    Ok(())
}

/// A context with the pair `k=v`.
fn with_pair(alloc: Global) -> Result<Context, AllocError> {
    let mut baggage = Baggage::new(alloc);
    let _ = baggage.insert(Key::from("k"), StringValue::from("v"))?;
    Context::new().with_baggage(alloc, baggage)
}

fn inject_baggage<R: Print>(alloc: Global, lines: &Lines<'_, R>) -> Result<(), AllocError> {
    let propagator = BaggagePropagator::new(alloc)?;
    let context = with_pair(alloc)?;
    inject(alloc, lines, &propagator, &context, &BAGGAGE_KEYS)
}

/// A carrier with these texts.
pub fn carrier_of(
    alloc: Global,
    texts: &[(&str, &str)],
) -> Result<HashMap<String, String>, AllocError> {
    let mut carrier: HashMap<String, String> = HashMap::new(alloc);
    for (key, value) in texts {
        let value = String::from_str(alloc, value)?;
        carrier.insert(String::from_str(alloc, key)?, value)?;
    }
    Ok(carrier)
}

fn extract_trace<R: Print>(alloc: Global, lines: &Lines<'_, R>) -> Result<(), AllocError> {
    let propagator = TraceContextPropagator::new(alloc)?;
    let carrier = carrier_of(alloc, &TRACE_TEXTS)?;
    match propagator.extract_with_context(alloc, &Context::new(), &carrier) {
        Ok(context) => lines.answer(&Show(context.span_context())),
        Err(error) => lines.answer(&error),
    }
    Ok(())
}

fn extract_baggage<R: Print>(alloc: Global, lines: &Lines<'_, R>) -> Result<(), AllocError> {
    let propagator = BaggagePropagator::new(alloc)?;
    let carrier = carrier_of(alloc, &BAGGAGE_TEXTS)?;
    match propagator.extract_with_context(alloc, &Context::new(), &carrier) {
        Ok(context) => baggage_answer(lines, &context),
        Err(error) => lines.answer(&error),
    }
    Ok(())
}

fn baggage_answer<R: Print>(lines: &Lines<'_, R>, context: &Context) {
    match context.baggage() {
        Some(baggage) => lines.answer(&Show(baggage)),
        None => lines.answer(&"no baggage"),
    }
}

fn inject_all<R: Print>(alloc: Global, lines: &Lines<'_, R>) -> Result<(), AllocError> {
    let propagator = W3cPropagator::new(alloc)?;
    let context = with_pair(alloc)?.with_remote_span_context(alloc, remote(1, TraceState::NONE))?;
    inject(alloc, lines, &propagator, &context, &ALL_KEYS)
}

fn extract_all<R: Print>(alloc: Global, lines: &Lines<'_, R>) -> Result<(), AllocError> {
    let propagator = W3cPropagator::new(alloc)?;
    let mut carrier = carrier_of(alloc, &TRACE_TEXTS)?;
    let (key, value) = BAGGAGE_TEXTS[0];
    let value = String::from_str(alloc, value)?;
    carrier.insert(String::from_str(alloc, key)?, value)?;
    match propagator.extract_with_context(alloc, &Context::new(), &carrier) {
        Ok(context) => baggage_answer(lines, &context),
        Err(error) => lines.answer(&error),
    }
    Ok(())
}
