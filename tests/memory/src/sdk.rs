//! Resources, samplers, tracers and spans, and the path of spans to an exporter.
mod attributes;
mod configured;
mod env;
mod export;
mod json;
mod json_logs;
mod loggers;
mod logs;
mod otlp_http;
mod processors;
mod protos;
mod spans;
mod stream_client;
mod tracer;
mod tracing;

use crate::lines::Lines;
use opentelemetry::trace::{SpanContext, SpanId, SpanKind, TraceFlags, TraceId, TraceState};
use opentelemetry::{Context, Key, KeyValue, StringValue, Value};
use otel_sdk::env::EnvSampler;
use otel_sdk::resource::{Resource, ResourceBuilder};
use otel_sdk::trace::{
    ParentBased, RateLimitingSampler, Sampler, SamplingParameters, ShouldSample,
};
use std::alloc::{AllocError, Global};

pub fn play<R: Print>(rt: HostRuntime, lines: &Lines<'_, R>) {
    let alloc = rt.alloc();
    if lines.begin("sampler") {
        lines.end(asked(alloc, lines));
    }
    if lines.begin("sampler-description") {
        let sampler = Sampler::TraceIdRatioBased(0.5);
        lines.answer_of(sampler.description(alloc));
    }
    if lines.begin("rate-limiting-description") {
        lines.answer_of(RateLimitingSampler::new(100).description(alloc));
    }
    if lines.begin("parent-based-description") {
        let sampler = ParentBased::new(Sampler::AlwaysOff);
        lines.answer_of(sampler.description(alloc));
    }
    attributes::play(alloc, lines);
    resources(alloc, lines);
    env::play(rt, lines);
    configured::play(alloc, lines);
    tracer::play(rt, lines);
    spans::play(alloc, lines);
    processors::play(alloc, lines);
    export::play(alloc, lines);
    json::play(alloc, lines);
    protos::play(alloc, lines);
    otlp_http::play(alloc, lines);
    json_logs::play(alloc, lines);
    stream_client::play(rt, lines);
    logs::play(alloc, lines);
    loggers::play(rt, lines);
    tracing::play(rt, lines);
}

fn resources<R: Print>(alloc: Global, lines: &Lines<'_, R>) {
    if lines.begin("resource-builder") {
        built(lines, Resource::builder(alloc));
    }
    if lines.begin("resource-with-attribute") {
        built(lines, builder(alloc));
    }
    if lines.begin("resource-with-attributes") {
        lines.end(with_attributes(alloc, lines));
    }
    if lines.begin("resource-with-service-name") {
        let name = StringValue::from("cart");
        built(
            lines,
            Resource::builder_empty(alloc).with_service_name(name),
        );
    }
    if lines.begin("resource-from-texts") {
        let read = Resource::from_texts(alloc, "a=b%2Cc,,d=e", "cart");
        lines.answer_of(read.map(|(resource, _)| resource.len()));
    }
    if lines.begin("resource-for-service") {
        let resource = Resource::builder_empty(alloc).build();
        let named = resource.for_service(StringValue::from("cart"));
        lines.answer_of(named.map(|resource| resource.len()));
    }
    if lines.begin("resource-merge") {
        lines.end(merge(alloc, lines));
    }
}

/// A parent with pairs in its trace state.
fn parent(alloc: Global) -> Result<Context, AllocError> {
    let Ok(trace_state) = TraceState::from_str(alloc, "a=1,b=2") else {
        return Err(AllocError);
    };
    let (trace_id, span_id) = (TraceId::from(1), SpanId::from(2));
    let flags = TraceFlags::SAMPLED;
    let span_context = SpanContext::new(trace_id, span_id, flags, true, trace_state);
    Context::new().with_remote_span_context(alloc, span_context)
}

fn asked<R: Print>(alloc: Global, lines: &Lines<'_, R>) -> Result<(), AllocError> {
    let parent = parent(alloc)?;
    let span = SamplingParameters {
        parent_context: &parent,
        trace_id: TraceId::from(1),
        name: "s",
        span_kind: SpanKind::Server,
        attributes: &[],
        links: &[],
        start_time: Some(1),
    };
    let answer = Sampler::AlwaysOn.should_sample(alloc, &span);
    lines.free_ok("Sampler::should_sample", answer);
    let sampler = ParentBased::new(Sampler::TraceIdRatioBased(0.5));
    let answer = sampler.should_sample(alloc, &span);
    lines.free_ok("ParentBased::should_sample", answer);
    let answer = RateLimitingSampler::new(1).should_sample(alloc, &span);
    lines.free_ok("RateLimitingSampler::should_sample", answer);
    let sampler = EnvSampler::ParentBased(Sampler::TraceIdRatioBased(0.5));
    let answer = sampler.should_sample(alloc, &span);
    lines.free_ok("EnvSampler::should_sample", answer);
    Ok(())
}

fn attribute() -> KeyValue {
    KeyValue::new(Key::from("k"), Value::from("v"))
}

/// A builder with an attribute.
fn builder(alloc: Global) -> Result<ResourceBuilder, AllocError> {
    Resource::builder_empty(alloc).with_attribute(attribute())
}

/// Prints the number of attributes.
fn built<R: Print>(lines: &Lines<'_, R>, answer: Result<ResourceBuilder, AllocError>) {
    lines.answer_of(answer.map(|builder| builder.build().len()));
}

fn with_attributes<R: Print>(alloc: Global, lines: &Lines<'_, R>) -> Result<(), AllocError> {
    let mut attributes = Vec::new(alloc);
    attributes.push(attribute())?;
    built(
        lines,
        Resource::builder_empty(alloc).with_attributes(attributes),
    );
    Ok(())
}

fn merge<R: Print>(alloc: Global, lines: &Lines<'_, R>) -> Result<(), AllocError> {
    let old = Resource::builder_empty(alloc).build();
    let updating = builder(alloc)?.build();
    lines.answer_of(old.merge(updating).map(|resource| resource.len()));
    Ok(())
}
