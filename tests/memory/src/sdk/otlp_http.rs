//! OTLP over HTTP: its configuration, and its exporter over a client without a collector.
use crate::lines::Lines;
use crate::sdk::export::span;
use crate::sdk::json::told;
use http::{Request, Response};
use opentelemetry::StringValue;
use otel_otlp::{HttpClient, HttpError, OtlpHttpConfig, OtlpHttpExporter, OtlpHttpSpanExporter};
use otel_sdk::env::{EnvEndpoint, EnvOtlp};
use otel_sdk::trace::Exporter;
use otel_sdk_base::{Accepted, ManualClock};
use std::alloc::{AllocError, Global};
use std::io::{self, ErrorKind};
use std::random::RandomSource;

pub fn play<R: Print>(alloc: Global, lines: &Lines<'_, R>) {
    if lines.begin("otlp-http-config-new") {
        lines.answer_named("made", OtlpHttpConfig::new(alloc));
    }
    if lines.begin("otlp-http-config-with-header") {
        lines.end(with_header(alloc, lines));
    }
    if lines.begin("otlp-http-config-with-header-list") {
        lines.end(with_header_list(alloc, lines));
    }
    if lines.begin("otlp-http-config-from-texts") {
        let made = OtlpHttpConfig::from_texts(alloc, "http://h:4318", "", HEADERS);
        lines.answer_named("made", made);
    }
    if lines.begin("otlp-http-config-from-env") {
        lines.answer_named("made", OtlpHttpConfig::from_env(alloc, &given()));
    }
    if lines.begin("otlp-http-exporter-new") {
        lines.end(new(alloc, lines));
    }
    if lines.begin("otlp-http-exporter-export") {
        lines.end(export(alloc, lines));
    }
    if lines.begin("otlp-http-exporter-refusals") {
        lines.end(refusals(alloc, lines));
    }
}

fn config(alloc: Global) -> Result<OtlpHttpConfig, AllocError> {
    match OtlpHttpConfig::new(alloc) {
        Ok(config) => Ok(config),
        Err(_) => Err(AllocError),
    }
}

fn with_header<R: Print>(alloc: Global, lines: &Lines<'_, R>) -> Result<(), AllocError> {
    let config = config(alloc)?;
    lines.answer_named(
        "set",
        config.with_header(alloc, "x-api-key-of-a-tenant", "secret"),
    );
    Ok(())
}

const HEADERS: &str = "x-api-key-of-a-tenant=a%2Cb,x-tenant=c";

fn with_header_list<R: Print>(alloc: Global, lines: &Lines<'_, R>) -> Result<(), AllocError> {
    let config = config(alloc)?;
    lines.answer_named("set", config.with_header_list(alloc, HEADERS));
    Ok(())
}

/// What the environment gives for a signal.
pub fn given() -> EnvOtlp {
    EnvOtlp {
        endpoint: EnvEndpoint::Exact(StringValue::from("http://h:4318/a")),
        headers: StringValue::from(HEADERS),
    }
}

/// A client without a collector.
#[derive(Drop)]
struct Away {
    sent: Accepted<Request<Vec<u8>>>,
}

impl HttpClient for Away {
    ghost use Rattle.std.specs.Prelude.{flat_map};

    ghost sent = { λ c. flat_map (λ batch. batch) c.sent.batches };

    fn send_bytes(&mut self, request: &Request<Vec<u8>>) -> Result<Response<Vec<u8>>, HttpError> {
        self.sent = self.sent.and_one(request);
        Err(HttpError::Unreachable)
    }
}

/// A source that fails.
#[derive(Drop)]
struct Dry;

impl RandomSource for Dry {
    fn fill_bytes(&self, _buf: &mut [u8]) -> io::Result<()> {
        Err(ErrorKind::Unsupported.into())
    }
}

type Sender = OtlpHttpSpanExporter<Away, Dry, ManualClock>;

fn exporter(alloc: Global) -> Result<Sender, AllocError> {
    let client = Away {
        sent: Accepted::new(),
    };
    match OtlpHttpExporter::new(alloc, client, config(alloc)?, Dry, ManualClock::new(0)) {
        Ok(exporter) => Ok(exporter),
        Err(_) => Err(AllocError),
    }
}

fn new<R: Print>(alloc: Global, lines: &Lines<'_, R>) -> Result<(), AllocError> {
    let config = config(alloc)?;
    let client = Away {
        sent: Accepted::new(),
    };
    let clock = ManualClock::new(0);
    let made: Result<Sender, _> = OtlpHttpExporter::new(alloc, client, config, Dry, clock);
    lines.answer_named("made", made);
    Ok(())
}

fn export<R: Print>(alloc: Global, lines: &Lines<'_, R>) -> Result<(), AllocError> {
    let batch = [span(alloc)?];
    let mut exporter = exporter(alloc)?;
    lines.answer_named("accepted", exporter.export(&batch));
    Ok(())
}

/// Calls while a part waits.
fn refusals<R: Print>(alloc: Global, lines: &Lines<'_, R>) -> Result<(), AllocError> {
    let batch = [span(alloc)?];
    let mut exporter = exporter(alloc)?;
    if exporter.export(&batch).is_err() {
        return Err(AllocError);
    }
    lines.free(
        "OtlpHttpExporter::force_flush",
        &told(exporter.force_flush()),
    );
    lines.free("OtlpHttpExporter::shutdown", &told(exporter.shutdown()));
    Ok(())
}
