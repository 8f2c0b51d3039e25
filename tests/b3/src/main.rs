//! Injects and extracts headers of B3, as lines of standard input ask:
//!
//!     inject FORM TRACE SPAN SAMPLED DEBUG     prints the headers, as NAME=VALUE ..
//!     extract NAME=VALUE ..                    prints TRACE SPAN SAMPLED DEBUG, or none
//!
//! FORM is `single` or `multi`, ids are hexadecimal, and flags are 0 or 1. SAMPLED is `-` if the
//! decision is deferred; then the injected context is one that was extracted.
#![tactic(auto)]

use opentelemetry::logs::AnyValue;
use opentelemetry::propagation::{PropagationError, TextMapPropagator};
use opentelemetry::trace::{SpanContext, SpanId, TraceFlags, TraceId, TraceState};
use opentelemetry::{Context, Key};
use otel_propagators::B3Propagator;
use std::alloc::{AllocError, Global};
use std::collections::HashMap;
use std::io::{self, BufRead, BufReader, BufWriter, Write};

const NAMES: [&'static str; 5] = [
    "b3",
    "x-b3-traceid",
    "x-b3-spanid",
    "x-b3-sampled",
    "x-b3-flags",
];

fn ample<T>(outcome: Result<T, PropagationError>) -> Result<T, AllocError> {
    match outcome {
        Ok(value) => Ok(value),
        Err(_) => Err(AllocError),
    }
}

/// The headers that are injected for the words of a line.
fn inject(alloc: Global, words: &[&str]) -> Result<HashMap<String, String>, AllocError> {
    let mut headers = HashMap::new(alloc);
    let [form, trace_id, span_id, sampled, debug] = words else {
        return Ok(headers);
    };
    let propagator = if *form == "single" {
        B3Propagator::single(alloc)?
    } else {
        B3Propagator::multi(alloc)?
    };
    let span_context = SpanContext::new(
        TraceId::from_hex(*trace_id).unwrap_or(TraceId::INVALID),
        SpanId::from_hex(*span_id).unwrap_or(SpanId::INVALID),
        TraceFlags::NOT_SAMPLED.with_sampled(*sampled == "1"),
        false,
        TraceState::NONE,
    );
    let mut context = if *sampled == "-" {
        let ids = format!(in alloc; "{}-{}", span_context.trace_id(), span_context.span_id())?;
        let mut received: HashMap<String, String> = HashMap::new(alloc);
        received.insert(String::from_str(alloc, "b3")?, ids)?;
        ample(propagator.extract_with_context(alloc, &Context::new(), &received))?
    } else {
        Context::new().with_remote_span_context(alloc, span_context)?
    };
    if *debug == "1" {
        context = context.with_value(alloc, Key::from("b3-debug"), AnyValue::Boolean(true))?;
    }
    ample(propagator.inject_context(&context, &mut headers))?;
    Ok(headers)
}

/// The context that is extracted from the words of a line.
fn extract(alloc: Global, words: &[&str]) -> Result<Context, AllocError> {
    let mut headers: HashMap<String, String> = HashMap::new(alloc);
    for word in words {
        if let Some((name, value)) = word.split_once('=') {
            let value = String::from_str(alloc, value)?;
            headers.insert(String::from_str(alloc, name)?, value)?;
        }
    }
    let propagator = B3Propagator::single(alloc)?;
    ample(propagator.extract_with_context(alloc, &Context::new(), &headers))
}

fn answer<W: Write + Drop>(alloc: Global, line: &str, output: &mut W) -> io::Result<()> {
    let mut words: Vec<&str> = Vec::new(alloc);
    for word in line.split(' ') {
        words.push(word)?;
    }
    let [call, others @ ..] = words.as_slice() else {
        return Ok(());
    };
    if *call == "inject" {
        let headers = inject(alloc, others)?;
        for name in NAMES {
            if let Some(value) = headers.get(name) {
                write!(output, "{name}={value} ")?;
            }
        }
        return writeln!(output);
    }
    let context = extract(alloc, others)?;
    let span_context = context.span_context();
    if !span_context.is_valid() || !span_context.is_remote() {
        return writeln!(output, "none");
    }
    let (trace_id, span_id) = (span_context.trace_id(), span_context.span_id());
    let is_deferred = matches!(context.get("b3-deferred"), Some(AnyValue::String(_)));
    let sampled = match (is_deferred, span_context.trace_flags().is_sampled()) {
        (_, true) => "1",
        (true, false) => "-",
        (false, false) => "0",
    };
    let debug = matches!(context.get("b3-debug"), Some(AnyValue::Boolean(true)));
    writeln!(output, "{trace_id} {span_id} {sampled} {}", u8::from(debug))
}

fn main(rt: HostRuntime) -> io::Result<()> {
    let alloc = rt.alloc();
    let mut output = BufWriter::new(alloc, rt.stdout())?;
    for line in BufReader::new(alloc, rt.stdin())?.lines(alloc) {
        answer(alloc, line?.as_str(), &mut output)?;
    }
    output.flush()
}
