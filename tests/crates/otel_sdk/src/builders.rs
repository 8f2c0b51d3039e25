//! The builders that the configuration sets, and the text that names its variables.
use crate::env::config;
use opentelemetry::logs::{AnyValue, LogRecord, Logger, LoggerProvider};
use opentelemetry::trace::{Span, SpanBuilder, Tracer, TracerProvider};
use opentelemetry::{Context, Key, StringValue, Value};
use otel_sdk::EnvConfig;
use otel_sdk::env::WithEnv;
use otel_sdk::logs::{BatchLogProcessor, InMemoryLogExporter, SdkLoggerProvider};
use otel_sdk::trace::{Clock, IdGenerator, Sampler, SdkTracerProvider, ShouldSample};
use std::alloc::Global;
use std::test::Fail;

#[test]
fn provider_obeys_the_environment(rt: HostRuntime) -> Result<(), Fail> {
    let alloc = rt.alloc();
    let name = ("OTEL_SERVICE_NAME", "shop");
    let config = config(alloc, &[name, ("OTEL_TRACES_SAMPLER", "always_off")])?;
    let by_env = SdkTracerProvider::builder(rt).with_env(alloc, &config)?;
    let by_code = SdkTracerProvider::builder(rt)
        .with_env(alloc, &config)?
        .with_sampler(Sampler::AlwaysOn);
    let provider = by_env.build(alloc)?;
    let shop = Value::String(StringValue::from("shop"));
    assert!(rt; provider.resource().get("service.name") == Some(&shop));
    assert!(rt; !samples(alloc, &provider)?);
    assert!(rt; samples(alloc, &by_code.build(alloc)?)?);
    Ok(())
}

/// Whether the provider samples a root.
fn samples<S: ShouldSample, G: IdGenerator, C: Clock>(
    alloc: Global,
    provider: &SdkTracerProvider<S, G, C>,
) -> Result<bool, Fail> {
    let tracer = provider.tracer(alloc, StringValue::from("shop"))?;
    let builder = SpanBuilder::from_name(StringValue::from("work"));
    let span = tracer.build_with_context(alloc, builder, &Context::new())?;
    Ok(span.span_context().is_sampled())
}

#[test]
fn logger_provider_obeys_the_environment(rt: HostRuntime) -> Result<(), Fail> {
    let alloc = rt.alloc();
    let name = ("OTEL_SERVICE_NAME", "shop");
    let config = config(
        alloc,
        &[name, ("OTEL_LOGRECORD_ATTRIBUTE_COUNT_LIMIT", "1")],
    )?;
    let queue = config.log_batches.config();
    let processor = BatchLogProcessor::new(alloc, InMemoryLogExporter::new(alloc), queue)?;
    let provider = SdkLoggerProvider::builder(rt)
        .with_log_processor(processor)
        .with_env(alloc, &config)?
        .build(alloc)?;
    let shop = Value::String(StringValue::from("shop"));
    assert!(rt; provider.resource().get("service.name") == Some(&shop));
    let logger = provider.logger(alloc, StringValue::from("shop"))?;
    let mut record = logger.create_log_record(alloc)?;
    record.add_attribute(alloc, Key::from("a"), AnyValue::Int(1))?;
    record.add_attribute(alloc, Key::from("b"), AnyValue::Int(2))?;
    assert!(rt; record.attributes.len() == 1);
    Ok(())
}

#[test]
fn logger_obeys_the_environment(rt: HostRuntime) -> Result<(), Fail> {
    let alloc = rt.alloc();
    let limit = ("OTEL_LOGRECORD_ATTRIBUTE_COUNT_LIMIT", "1");
    let config = config(alloc, &[limit])?;
    let queue = config.log_batches.config();
    let processor = BatchLogProcessor::new(alloc, InMemoryLogExporter::new(alloc), queue)?;
    let logger = config.logger(alloc, rt, processor, "shop")?;
    let mut record = logger.create_log_record(alloc)?;
    record.add_attribute(alloc, Key::from("a"), AnyValue::Int(1))?;
    record.add_attribute(alloc, Key::from("b"), AnyValue::Int(2))?;
    assert!(rt; record.attributes.len() == 1);
    Ok(())
}

#[test]
fn help_names_each_variable(rt: HostRuntime) -> Result<(), Fail> {
    let alloc = rt.alloc();
    assert!(rt; EnvConfig::HELP.ends_with("\n"));
    let mut named = 0;
    for line in EnvConfig::HELP.lines() {
        if line.starts_with("OTEL_") {
            named += 1;
        } else {
            assert!(rt; line.starts_with("    "));
        }
    }
    assert_eq!(rt; named, 38);
    // Whatever is read from a faulty text is in the help.
    for name in [
        "OTEL_PROPAGATORS",
        "OTEL_BLRP_SCHEDULE_DELAY",
        "OTEL_LOGS_EXPORTER",
    ] {
        let config = config(alloc, &[(name, "x")])?;
        assert!(rt; EnvConfig::HELP.contains(config.warnings[0].name.as_str()));
    }
    Ok(())
}

/// The default that stands in parentheses at the end of a line of the help, unless it is another
/// variable.
fn default_in(line: &str) -> Option<&str> {
    let (_, default) = line.strip_suffix(")")?.rsplit_once('(')?;
    if default.starts_with("OTEL_") {
        None
    } else {
        Some(default)
    }
}

/// The configuration of these variables, as `Debug` prints it.
fn printed(alloc: Global, vars: &[(&str, &str)]) -> Result<String, Fail> {
    let config = config(alloc, vars)?;
    Ok(format!(in alloc; "{config:?}")?)
}

#[test]
fn help_tells_the_defaults(rt: HostRuntime) -> Result<(), Fail> {
    let alloc = rt.alloc();
    let unset = printed(alloc, &[])?;
    let mut name = "";
    let mut told = 0;
    for line in EnvConfig::HELP.lines() {
        if let Some((word, _)) = line.split_once(' ')
            && !word.is_empty()
        {
            name = word;
        }
        if let Some(default) = default_in(line) {
            let set = printed(alloc, &[(name, default)])?;
            assert_eq!(rt; set.as_str(), unset.as_str(), "{name}");
            told += 1;
        }
    }
    assert_eq!(rt; told, 21);
    Ok(())
}
