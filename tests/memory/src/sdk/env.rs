//! The configuration by environment variables.
use crate::lines::Lines;
use otel_sdk::EnvConfig;
use otel_sdk::env::{EnvSampler, VariableSource, WithEnv};
use otel_sdk::logs::{InMemoryLogExporter, SdkLoggerProvider, SimpleLogProcessor};
use otel_sdk::trace::{Sampler, SdkTracerProvider, ShouldSample, TracingBuilder};
use std::alloc::{AllocError, Global};

pub fn play<R: Print>(rt: HostRuntime, lines: &Lines<'_, R>) {
    let alloc = rt.alloc();
    if lines.begin("env-config") {
        lines.end(read(alloc, lines));
    }
    if lines.begin("env-of-the-process") {
        let config = EnvConfig::from_env(&rt);
        lines.answer_of(config.map(|config| config.warnings.len()));
    }
    if lines.begin("env-variable") {
        lines.answer_of(rt.variable("OTEL_NO_SUCH").map(|text| text.is_some()));
    }
    if lines.begin("env-resource") {
        lines.end(resource(alloc, lines));
    }
    if lines.begin("env-sampler-description") {
        let sampler = EnvSampler::ParentBased(Sampler::AlwaysOff);
        lines.answer_of(sampler.description(alloc));
    }
    if lines.begin("tracing-builder-with-env") {
        lines.end(with_env(rt, lines));
    }
    if lines.begin("tracer-provider-with-env") {
        lines.end(provider_with_env(rt, lines));
    }
    if lines.begin("logger-provider-with-env") {
        lines.end(loggers_with_env(rt, lines));
    }
    if lines.begin("env-logger") {
        lines.end(logger(rt, lines));
    }
}

/// Variables of which one has two faults, and another one.
fn vars(alloc: Global) -> Result<Vec<(String, String)>, AllocError> {
    let mut vars = Vec::new(alloc);
    for (name, text) in [
        ("OTEL_SERVICE_NAME", "shop"),
        ("OTEL_RESOURCE_ATTRIBUTES", "a=b%2Cc"),
        ("OTEL_PROPAGATORS", "b3,none,zipkin"),
        ("OTEL_EXPORTER_OTLP_ENDPOINT", "http://h"),
        ("OTEL_EXPORTER_OTLP_TRACES_ENDPOINT", "grpc://h"),
        ("OTEL_EXPORTER_OTLP_HEADERS", "a=1,b c=2,x-d=%20"),
        ("OTEL_LOG_LEVEL", "debug"),
    ] {
        vars.push((
            String::from_str(alloc, name)?,
            String::from_str(alloc, text)?,
        ))?;
    }
    Ok(vars)
}

/// Prints the number of warnings.
fn read<R: Print>(alloc: Global, lines: &Lines<'_, R>) -> Result<(), AllocError> {
    let vars = vars(alloc)?;
    let config = EnvConfig::from_vars(alloc, vars.as_slice());
    lines.answer_of(config.map(|config| config.warnings.len()));
    Ok(())
}

/// Prints the number of attributes.
fn resource<R: Print>(alloc: Global, lines: &Lines<'_, R>) -> Result<(), AllocError> {
    let vars = vars(alloc)?;
    let config = EnvConfig::from_vars(alloc, vars.as_slice())?;
    lines.answer_of(config.resource(alloc).map(|resource| resource.len()));
    Ok(())
}

fn with_env<R: Print>(rt: HostRuntime, lines: &Lines<'_, R>) -> Result<(), AllocError> {
    let alloc = rt.alloc();
    let vars = vars(alloc)?;
    let config = EnvConfig::from_vars(alloc, vars.as_slice())?;
    let builder = TracingBuilder::new(rt);
    lines.answer_named("set", builder.with_env(alloc, &config));
    Ok(())
}

fn provider_with_env<R: Print>(rt: HostRuntime, lines: &Lines<'_, R>) -> Result<(), AllocError> {
    let alloc = rt.alloc();
    let vars = vars(alloc)?;
    let config = EnvConfig::from_vars(alloc, vars.as_slice())?;
    let builder = SdkTracerProvider::builder(rt);
    lines.answer_named("set", builder.with_env(alloc, &config));
    Ok(())
}

fn loggers_with_env<R: Print>(rt: HostRuntime, lines: &Lines<'_, R>) -> Result<(), AllocError> {
    let alloc = rt.alloc();
    let vars = vars(alloc)?;
    let config = EnvConfig::from_vars(alloc, vars.as_slice())?;
    let builder = SdkLoggerProvider::builder(rt);
    lines.answer_named("set", builder.with_env(alloc, &config));
    Ok(())
}

fn logger<R: Print>(rt: HostRuntime, lines: &Lines<'_, R>) -> Result<(), AllocError> {
    let alloc = rt.alloc();
    let vars = vars(alloc)?;
    let config = EnvConfig::from_vars(alloc, vars.as_slice())?;
    let processor = SimpleLogProcessor::new(alloc, InMemoryLogExporter::new(alloc))?;
    lines.answer_named("made", config.logger(alloc, rt, processor, "shop"));
    Ok(())
}
