//! Extracts a context from headers, injects it, and does the same again with the result.
use opentelemetry::Context;
use opentelemetry::propagation::{
    Injector, PropagationError, TextMapCompositePropagator, TextMapPropagator,
};
use otel_propagators::{BaggagePropagator, TraceContextPropagator};
use std::alloc::{AllocError, Global};
use std::collections::HashMap;
use std::io::{self, Write};

type Carrier = HashMap<String, String>;

/// The carrier with the lines `KEY=VALUE`.
fn carrier_of(alloc: Global, input: &[u8]) -> Result<Carrier, PropagationError> {
    let mut carrier: Carrier = HashMap::new(alloc);
    let text = str::from_utf8(input).unwrap_or("");
    for line in text.split('\n') {
        if let Some((key, value)) = line.split_once('=') {
            Injector::set(&mut carrier, key, String::from_str(alloc, value)?)?;
        }
    }
    Ok(carrier)
}

fn composite(alloc: Global) -> Result<TextMapCompositePropagator, AllocError> {
    let mut members: Vec<Box<dyn TextMapPropagator>> = Vec::new(alloc);
    members.push(Box::new(alloc, TraceContextPropagator::new(alloc)?)?)?;
    members.push(Box::new(alloc, BaggagePropagator::new(alloc)?)?)?;
    TextMapCompositePropagator::new(alloc, members)
}

/// The carrier into which the context extracted from this one is injected.
fn passed_on(
    alloc: Global,
    composite: &TextMapCompositePropagator,
    carrier: &Carrier,
) -> Result<Carrier, PropagationError> {
    let context = composite.extract_with_context(alloc, &Context::new(), carrier)?;
    let mut next: Carrier = HashMap::new(alloc);
    composite.inject_context(&context, &mut next)?;
    Ok(next)
}

/// Adds the lines `KEY=VALUE` of the carrier, in ascending order.
fn write_carrier(alloc: Global, output: &mut Vec<u8>, carrier: &Carrier) -> io::Result<()> {
    let mut pairs = Vec::new(alloc);
    for (key, value) in carrier {
        pairs.push((key.as_str(), value.as_str()))?;
    }
    pairs.sort()?;
    for (key, value) in &pairs {
        writeln!(output, "{key}={value}")?;
    }
    Ok(())
}

/// Both carriers, and 0 as the status.
pub fn answer(alloc: Global, input: &[u8]) -> io::Result<(Vec<u8>, u8)> {
    let mut output = Vec::new(alloc);
    let composite = composite(alloc)?;
    let Ok(first) = carrier_of(alloc, input).and_then(|it| passed_on(alloc, &composite, &it)) else {
        return Ok((output, 1));
    };
    write_carrier(alloc, &mut output, &first)?;
    let Ok(second) = passed_on(alloc, &composite, &first) else {
        return Ok((output, 1));
    };
    write_carrier(alloc, &mut output, &second)?;
    Ok((output, 0))
}
