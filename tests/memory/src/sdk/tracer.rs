//! Providers and tracers.
use crate::lines::Lines;
use opentelemetry::trace::{Span, SpanBuilder, Tracer, TracerProvider};
use opentelemetry::{Context, InstrumentationScope, Key, KeyValue, StringValue, Value};
use otel_sdk::resource::Resource;
use otel_sdk::trace::{
    CountedIdGenerator, ManualClock, Sampler, SdkTracer, SdkTracerProvider, TracerPipeline,
};
use std::alloc::{AllocError, Global};

type Provider = SdkTracerProvider<Sampler, CountedIdGenerator, ManualClock>;

type Pipeline = TracerPipeline<Sampler, CountedIdGenerator, ManualClock>;

pub fn play<R: Print>(rt: HostRuntime, lines: &Lines<'_, R>) {
    let alloc = rt.alloc();
    if lines.begin("tracer-provider-with-resource") {
        lines.end(with_resource(rt, lines));
    }
    if lines.begin("tracer-provider-build") {
        lines.answer_named("built", SdkTracerProvider::builder(rt).build(alloc));
    }
    if lines.begin("tracer-provider-tracer") {
        lines.end(tracer_of_scope(rt, lines));
    }
    if lines.begin("sdk-tracer-start") {
        lines.end(start(rt, lines));
    }
    if lines.begin("sdk-tracer-start-suppressed") {
        lines.end(start_suppressed(rt, lines));
    }
    if lines.begin("sdk-tracer-start-unsampled") {
        lines.end(start_unsampled(rt, lines));
    }
}

/// A resource with one attribute.
pub fn resource(alloc: Global) -> Result<Resource, AllocError> {
    let attribute = KeyValue::new(Key::from("k"), Value::from("v"));
    Ok(
        Resource::builder_empty(alloc)
            .with_attribute(attribute)?
            .build(),
    )
}

fn with_resource<R: Print>(rt: HostRuntime, lines: &Lines<'_, R>) -> Result<(), AllocError> {
    let alloc = rt.alloc();
    let first = Resource::builder_empty(alloc).build();
    let builder = SdkTracerProvider::builder(rt).with_resource(first)?;
    lines.answer_named("set", builder.with_resource(resource(alloc)?));
    Ok(())
}

fn provider(rt: HostRuntime, sampler: Sampler) -> Result<Provider, AllocError> {
    let alloc = rt.alloc();
    SdkTracerProvider::builder(rt)
        .with_resource(Resource::builder_empty(alloc).build())?
        .with_sampler(sampler)
        .with_id_generator(CountedIdGenerator::new())
        .with_clock(ManualClock::new(1))
        .build(alloc)
}

fn tracer_of_scope<R: Print>(rt: HostRuntime, lines: &Lines<'_, R>) -> Result<(), AllocError> {
    let alloc = rt.alloc();
    let provider = provider(rt, Sampler::AlwaysOn)?;
    let scope = InstrumentationScope::builder(StringValue::from("lib")).build(alloc)?;
    lines.answer_named("given", provider.tracer_with_scope(alloc, scope));
    Ok(())
}

fn tracer(rt: HostRuntime, sampler: Sampler) -> Result<SdkTracer<Pipeline>, AllocError> {
    provider(rt, sampler)?.tracer(rt.alloc(), StringValue::from("lib"))
}

fn start<R: Print>(rt: HostRuntime, lines: &Lines<'_, R>) -> Result<(), AllocError> {
    let alloc = rt.alloc();
    let tracer = tracer(rt, Sampler::AlwaysOn)?;
    let mut attributes = Vec::new(alloc);
    attributes.push(KeyValue::new(Key::from("k"), Value::from("v")))?;
    let builder = SpanBuilder::from_name(StringValue::from("work")).with_attributes(attributes);
    let answer = tracer.build_with_context(alloc, builder, &Context::new());
    lines.answer_named("started", answer);
    Ok(())
}

fn start_suppressed<R: Print>(rt: HostRuntime, lines: &Lines<'_, R>) -> Result<(), AllocError> {
    let alloc = rt.alloc();
    let tracer = tracer(rt, Sampler::AlwaysOn)?;
    let parent = Context::new().with_telemetry_suppressed(alloc)?;
    let builder = SpanBuilder::from_name(StringValue::from("work"));
    let answer = tracer.build_with_context(alloc, builder, &parent);
    lines.free_ok("SdkTracer::build_with_context", answer);
    Ok(())
}

fn start_unsampled<R: Print>(rt: HostRuntime, lines: &Lines<'_, R>) -> Result<(), AllocError> {
    let alloc = rt.alloc();
    let tracer = tracer(rt, Sampler::AlwaysOff)?;
    let builder = SpanBuilder::from_name(StringValue::from("work"));
    let mut answer = tracer.build_with_context(alloc, builder, &Context::new());
    if let Ok(span) = &mut answer {
        span.end(2);
    }
    lines.free_ok("SdkTracer::build_with_context", answer);
    Ok(())
}
