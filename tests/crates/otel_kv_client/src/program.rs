//! The program that the README of the client shows.
use opentelemetry::trace::{LocalTracing, NoopSource, Tracing};
use otel_kv_client::{Client, Found, Headers, Server};
use otel_otlp::OtlpJsonSpanExporter;
use otel_propagators::W3cPropagator;
use otel_sdk::error::{OTelSdkError, OTelSdkResult};
use otel_sdk::trace::{Build, Exports, TracingBuilder, WithExporter};
use otel_waterfall::WaterfallExporter;
use std::alloc::Global;
use std::collections::HashMap;
use std::test::Fail;

/// A server in memory.
#[derive(Drop)]
struct InMemory {
    alloc: Global,
    values: HashMap<String, String>,
}

impl Server for InMemory {
    type Error = OTelSdkError;

    fn answer(&mut self, key: &str, value: Option<&str>, _sent: &Headers) -> Found<InMemory> {
        if let Some(value) = value {
            let value = String::from_str(self.alloc, value)?;
            self.values
                .insert(String::from_str(self.alloc, key)?, value)?;
        }
        match self.values.get(key) {
            Some(value) => Ok(Some(value.clone()?)),
            None => Ok(None),
        }
    }
}

fn paint(tracing: &mut impl Tracing) -> OTelSdkResult {
    let alloc = tracing.alloc();
    let values = HashMap::new(alloc);
    let mut client = Client {
        propagator: W3cPropagator::new(alloc)?,
        server: InMemory { alloc, values },
    };
    client.put(tracing, "color", "blue")?;
    client.get(tracing, "color")?;
    Ok(())
}

fn traced(mut tracing: impl Exports + Drop) -> OTelSdkResult {
    paint(&mut tracing)?;
    tracing.shutdown()?;
    Ok(())
}

fn main(rt: HostRuntime) -> OTelSdkResult {
    paint(&mut LocalTracing::new(rt.alloc(), NoopSource::new())?)?;
    let lines = OtlpJsonSpanExporter::new(rt.alloc(), rt.stdout())?;
    let builder = TracingBuilder::new(rt)
        .with_exporter(WaterfallExporter::new(rt.alloc(), rt.stderr()))
        .with_exporter(lines);
    traced(builder.build(rt.alloc(), "painter")?)
}

#[test]
fn the_client_runs_untraced_and_under_two_exporters(rt: HostRuntime) -> Result<(), Fail> {
    Ok(main(rt)?)
}
