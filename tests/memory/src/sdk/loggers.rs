//! Providers of loggers, and the exporter of log records in memory.
use super::logs::data;
use crate::lines::Lines;
use opentelemetry::logs::{AnyValue, LogRecord, Logger, LoggerProvider};
use opentelemetry::{InstrumentationScope, Key, KeyValue, StringValue, Value};
use otel_sdk::error::OTelSdkResult;
use otel_sdk::logs::{
    BatchConfig, BatchLogProcessor, EmittedLogs, InMemoryLogExporter, LogData, SdkLoggerProvider,
    SimpleLogProcessor,
};
use otel_sdk::resource::Resource;
use otel_sdk::trace::{Exporter, ManualClock};
use std::alloc::{AllocError, Global};
use std::default::Default;

type Provider = SdkLoggerProvider<BatchLogProcessor<InMemoryLogExporter>, ManualClock>;

pub fn play<R: Print>(rt: HostRuntime, lines: &Lines<'_, R>) {
    let alloc = rt.alloc();
    if lines.begin("log-data-clone") {
        lines.end(copied(alloc, lines));
    }
    if lines.begin("log-exporter-export") {
        lines.end(export(alloc, lines));
    }
    if lines.begin("emitted-logs") {
        lines.end(emitted(alloc, lines));
    }
    if lines.begin("sdk-logger-provider-with-resource") {
        lines.end(with_resource(rt, lines));
    }
    if lines.begin("sdk-logger-provider-build") {
        lines.end(build(rt, lines));
    }
    if lines.begin("sdk-logger-provider-logger") {
        lines.end(logger_of_name(rt, lines));
    }
    if lines.begin("sdk-logger-provider-logger-with-scope") {
        lines.end(logger_of_scope(rt, lines));
    }
    if lines.begin("sdk-logger-provider-force-flush") {
        lines.end(handed_over(rt, lines, |provider| provider.force_flush()));
    }
    if lines.begin("sdk-logger-provider-shutdown") {
        lines.end(handed_over(rt, lines, |provider| provider.shutdown()));
    }
}

/// A record with an attribute.
fn record(alloc: Global) -> Result<LogData, AllocError> {
    let mut given = data(alloc)?;
    let key = Key::from("k");
    given.record.add_attribute(alloc, key, AnyValue::Int(1))?;
    Ok(given)
}

fn copied<R: Print>(alloc: Global, lines: &Lines<'_, R>) -> Result<(), AllocError> {
    lines.answer_named("copied", record(alloc)?.clone());
    Ok(())
}

fn export<R: Print>(alloc: Global, lines: &Lines<'_, R>) -> Result<(), AllocError> {
    let batch = [record(alloc)?];
    let mut exporter = InMemoryLogExporter::new(alloc);
    lines.answer_named("accepted", exporter.export(&batch));
    lines.free_ok("InMemoryExporter::force_flush", exporter.force_flush());
    lines.free_ok("InMemoryExporter::shutdown", exporter.shutdown());
    Ok(())
}

fn emitted<R: Print>(alloc: Global, lines: &Lines<'_, R>) -> Result<(), AllocError> {
    let batch = [record(alloc)?];
    let mut exporter = InMemoryLogExporter::new(alloc);
    if exporter.export(&batch).is_err() {
        return Err(AllocError);
    }
    lines.answer_of(exporter.get_emitted_logs().map(|records| records.len()));
    Ok(())
}

fn with_resource<R: Print>(rt: HostRuntime, lines: &Lines<'_, R>) -> Result<(), AllocError> {
    let alloc = rt.alloc();
    let attribute = KeyValue::new(Key::from("k"), Value::from("v"));
    let first = Resource::builder_empty(alloc).build();
    let second = Resource::builder_empty(alloc)
        .with_attribute(attribute)?
        .build();
    let builder = SdkLoggerProvider::builder(rt).with_resource(first)?;
    lines.answer_named("set", builder.with_resource(second));
    Ok(())
}

fn build<R: Print>(rt: HostRuntime, lines: &Lines<'_, R>) -> Result<(), AllocError> {
    let alloc = rt.alloc();
    let processor = SimpleLogProcessor::new(alloc, InMemoryLogExporter::new(alloc))?;
    let builder = SdkLoggerProvider::builder(rt).with_log_processor(processor);
    lines.answer_named("built", builder.build(alloc));
    Ok(())
}

fn provider(rt: HostRuntime) -> Result<Provider, AllocError> {
    let alloc = rt.alloc();
    let exporter = InMemoryLogExporter::new(alloc);
    let processor = BatchLogProcessor::new(alloc, exporter, BatchConfig::default())?;
    SdkLoggerProvider::builder(rt)
        .with_log_processor(processor)
        .with_clock(ManualClock::new(1))
        .with_resource(Resource::builder_empty(alloc).build())?
        .build(alloc)
}

fn logger_of_name<R: Print>(rt: HostRuntime, lines: &Lines<'_, R>) -> Result<(), AllocError> {
    let provider = provider(rt)?;
    let answer = provider.logger(rt.alloc(), StringValue::from("lib"));
    lines.answer_named("given", answer);
    Ok(())
}

fn logger_of_scope<R: Print>(rt: HostRuntime, lines: &Lines<'_, R>) -> Result<(), AllocError> {
    let alloc = rt.alloc();
    let provider = provider(rt)?;
    let scope = InstrumentationScope::builder(StringValue::from("lib")).build(alloc)?;
    lines.answer_named("given", provider.logger_with_scope(alloc, scope));
    Ok(())
}

/// The number of queued records.
fn queued(provider: &Provider) -> usize {
    match provider.processor() {
        Ok(processor) => processor.queued_records(),
        Err(_) => 0,
    }
}

fn handed_over<R: Print, F: FnOnce(&Provider) -> OTelSdkResult>(
    rt: HostRuntime,
    lines: &Lines<'_, R>,
    call: F,
) -> Result<(), AllocError> {
    let alloc = rt.alloc();
    let provider = provider(rt)?;
    let logger = provider.logger(alloc, StringValue::from("lib"))?;
    match logger.create_log_record(alloc) {
        Ok(record) => {
            lines.free("SdkLogger::create_log_record", &"ok");
            logger.emit(record);
        }
        Err(error) => lines.free("SdkLogger::create_log_record", &error),
    }
    lines.free("SdkLogger::emit", &queued(&provider));
    let answer = call(&provider);
    let is_due = (queued(&provider) == 0) == answer.is_ok();
    lines.answer_named("done", answer);
    lines.due(is_due);
    Ok(())
}
