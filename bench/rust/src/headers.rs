//! The headers `baggage`, `traceparent` and `tracestate`, read from a carrier and written to it.
//! Their propagators are in the SDK, not in this crate; the functions here do the same.
use crate::task::Task;
use opentelemetry::baggage::{BaggageExt, KeyValueMetadata};
use opentelemetry::propagation::{Extractor, Injector};
use opentelemetry::trace::{SpanContext, TraceContextExt, TraceState};
use opentelemetry::{Context, SpanId, TraceFlags, TraceId};
use percent_encoding::percent_decode_str;
use std::collections::HashMap;
use std::hint::black_box;
use std::str::FromStr;

type Carrier = HashMap<String, String>;

pub fn play(task: &Task<'_>) -> Option<u64> {
    match task.name {
        "header_baggage" => extract(task, members("%20", task.size)),
        "header_baggage_plain" => extract(task, members(".", task.size)),
        "header_baggage_same" => extract(task, "k=1,".repeat(task.size)),
        "header_trace_context" => {
            let carrier = carrier_of(task.size);
            task.repeat(|| {
                let context = read_trace_context(&Context::new(), black_box(&carrier));
                usize::from(black_box(&context).span().span_context().is_valid())
            })
        }
        "header_write_trace_context" => {
            let context = Context::new().with_remote_span_context(span_context());
            let mut carrier = Carrier::new();
            task.repeat(|| {
                write_trace_context(black_box(&context), black_box(&mut carrier));
                1
            })
        }
        _ => None,
    }
}

fn extract(task: &Task<'_>, header: String) -> Option<u64> {
    let carrier = Carrier::from([("baggage".to_string(), header)]);
    task.repeat(|| {
        let context = read_baggage(&Context::new(), black_box(&carrier));
        black_box(&context).baggage().len()
    })
}

fn members(blank: &str, size: usize) -> String {
    let members: Vec<String> = (0..size)
        .map(|number| format!("key{number}=value{blank}{number}"))
        .collect();
    members.join(",")
}

fn carrier_of(size: usize) -> Carrier {
    let parent = "00-4bf92f3577b34da6a3ce929d0e0e4736-00f067aa0ba902b7-01";
    let mut carrier = Carrier::from([("traceparent".to_string(), parent.to_string())]);
    if size > 0 {
        carrier.insert("tracestate".to_string(), members(".", size));
    }
    carrier
}

fn span_context() -> SpanContext {
    SpanContext::new(
        TraceId::from(1),
        SpanId::from(1),
        TraceFlags::SAMPLED,
        true,
        TraceState::NONE,
    )
}

#[inline(never)]
fn read_baggage(context: &Context, carrier: &dyn Extractor) -> Context {
    match carrier.get("baggage") {
        Some(header) => context.with_baggage(header.split(',').filter_map(read_member)),
        None => context.clone(),
    }
}

/// Reads `key=value;property;property`, each percent-decoded.
fn read_member(member: &str) -> Option<KeyValueMetadata> {
    let parts: Vec<&str> = member.split(';').collect();
    let (pair, properties) = parts.split_first()?;
    let (key, value) = pair.split_once('=')?;
    let key = percent_decode_str(key).decode_utf8().ok()?;
    let value = percent_decode_str(value).decode_utf8().ok()?;
    let properties: Vec<String> = properties
        .iter()
        .filter_map(|it| percent_decode_str(it).decode_utf8().ok())
        .map(|it| it.trim().to_string())
        .collect();
    Some(KeyValueMetadata::new(
        key.trim().to_string(),
        value.trim().to_string(),
        properties.join(";").as_str(),
    ))
}

#[inline(never)]
fn read_trace_context(context: &Context, carrier: &dyn Extractor) -> Context {
    match read_parent(carrier) {
        Some(span_context) => context.with_remote_span_context(span_context),
        None => context.clone(),
    }
}

fn read_parent(carrier: &dyn Extractor) -> Option<SpanContext> {
    let parts: Vec<&str> = carrier.get("traceparent")?.trim().split('-').collect();
    let [version, trace_id, span_id, flags, more @ ..] = parts.as_slice() else {
        return None;
    };
    let is_upper = |text: &str| text.bytes().any(|byte| byte.is_ascii_uppercase());
    let version = u8::from_str_radix(version, 16).ok()?;
    if version == 255
        || (version == 0 && !more.is_empty())
        || is_upper(trace_id)
        || is_upper(span_id)
    {
        return None;
    }
    let trace_id = TraceId::from_hex(trace_id).ok()?;
    let span_id = SpanId::from_hex(span_id).ok()?;
    let flags = TraceFlags::new(u8::from_str_radix(flags, 16).ok()?) & TraceFlags::SAMPLED;
    let state = carrier
        .get("tracestate")
        .map_or_else(TraceState::default, |header| {
            TraceState::from_str(header).unwrap_or_default()
        });
    let span_context = SpanContext::new(trace_id, span_id, flags, true, state);
    span_context.is_valid().then_some(span_context)
}

#[inline(never)]
fn write_trace_context(context: &Context, carrier: &mut dyn Injector) {
    let span = context.span();
    let span_context = span.span_context();
    if span_context.is_valid() {
        let flags = span_context.trace_flags() & TraceFlags::SAMPLED;
        let parent = format!(
            "{:02x}-{}-{}-{:02x}",
            0,
            span_context.trace_id(),
            span_context.span_id(),
            flags
        );
        carrier.set("traceparent", parent);
        carrier.set("tracestate", span_context.trace_state().header());
    }
}
