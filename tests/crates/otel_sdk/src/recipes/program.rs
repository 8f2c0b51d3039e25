//! The program by which the README of the API runs the library, and one with two exporters.
use super::library::parse_port;
use opentelemetry::trace::{LocalTracing, NoopSource};
use otel_otlp::{AppendFile, OtlpJsonSpanExporter};
use otel_sdk::error::OTelSdkResult;
use otel_sdk::trace::{Build, Exports, TracingBuilder, WithExporter};
use otel_waterfall::WaterfallExporter;
use std::test::Fail;

fn traced(mut tracing: impl Exports + Drop) -> OTelSdkResult {
    parse_port(&mut tracing, "4318")?;
    tracing.shutdown()?;
    Ok(())
}

fn main(rt: HostRuntime) -> OTelSdkResult {
    let mut untraced = LocalTracing::new(rt.alloc(), NoopSource::new())?;
    parse_port(&mut untraced, "4318")?;
    let builder = TracingBuilder::new(rt).counted(2_000_000);
    let builder = builder.with_exporter(WaterfallExporter::new(rt.alloc(), rt.stdout()));
    traced(builder.build(rt.alloc(), "ports")?)
}

fn to_both(rt: HostRuntime, path: String) -> OTelSdkResult {
    let picture = WaterfallExporter::new(rt.alloc(), rt.stderr());
    let lines = OtlpJsonSpanExporter::new(rt.alloc(), AppendFile::new(rt, path))?;
    let builder = TracingBuilder::new(rt)
        .with_exporter(picture)
        .with_exporter(lines);
    traced(builder.build(rt.alloc(), "ports")?)
}

#[test]
fn a_library_runs_untraced_and_traced(rt: HostRuntime) -> Result<(), Fail> {
    Ok(main(rt)?)
}

#[test]
fn a_library_is_traced_by_two_exporters(rt: HostRuntime) -> Result<(), Fail> {
    Ok(to_both(rt, format!(in rt.alloc(); "/dev/null")?)?)
}
