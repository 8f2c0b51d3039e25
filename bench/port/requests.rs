//! Requests of OTLP over HTTP, each of a batch of ended spans.
use crate::operation::{Operation, Task, add, repeat};
use crate::sdk::ended;
use http::{Request, Response};
use otel_otlp::{HttpClient, HttpError, OtlpHttpConfig, OtlpHttpSpanExporter};
use otel_sdk::trace::{Exporter, ManualClock, SpanData};
use otel_sdk_base::Accepted;
use std::alloc::{AllocError, Global};

/// Adds up the lengths of bodies, in place of sending them.
#[derive(Drop)]
struct ByteCounter {
    alloc: Global,
    bytes: usize,
    sent: Accepted<Request<Vec<u8>>>,
}

impl HttpClient for ByteCounter {
    ghost use Rattle.std.specs.Prelude.{flat_map};

    ghost sent = { λ c. flat_map (λ batch. batch) c.sent.batches };

    fn send_bytes(&mut self, request: &Request<Vec<u8>>) -> Result<Response<Vec<u8>>, HttpError> {
        self.sent = self.sent.and_one(request);
        self.bytes = self.bytes.wrapping_add(request.body().len());
        Ok(Response::new(self.alloc, Vec::new(self.alloc)))
    }
}

type Sender = OtlpHttpSpanExporter<ByteCounter, HostRuntime, ManualClock>;

pub fn play(task: &Task<'_>, alloc: Global, rt: HostRuntime) -> Result<Option<u64>, AllocError> {
    if task.name != "otlp_request" {
        return Ok(None);
    }
    let exporter = exporter(alloc, rt)?;
    let batch = ended(alloc, rt, task.size)?;
    repeat(Sending { exporter, batch }, task.times)
}

fn exporter(alloc: Global, rt: HostRuntime) -> Result<Sender, AllocError> {
    let client = ByteCounter {
        alloc,
        bytes: 0,
        sent: Accepted::new(),
    };
    let config = OtlpHttpConfig::new(alloc).map_err(|_| AllocError)?;
    OtlpHttpSpanExporter::new(alloc, client, config, rt, ManualClock::new(1)).map_err(
        |_| AllocError,
    )
}

#[inline(never)]
fn send(exporter: &mut Sender, batch: &[SpanData], sum: &mut u64) -> Result<(), AllocError> {
    exporter.export(batch).map_err(|_| AllocError)?;
    add(sum, exporter.client().bytes);
    Ok(())
}

/// A batch becomes the body of a request.
#[derive(Drop)]
struct Sending {
    exporter: Sender,
    batch: Vec<SpanData>,
}

impl Operation for Sending {
    fn once(&mut self, sum: &mut u64) -> Result<(), AllocError> {
        send(&mut self.exporter, self.batch.as_slice(), sum)
    }
}
