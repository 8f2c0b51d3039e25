//! The way of spans to an exporter.
use crate::lines::Lines;
use crate::sdk::tracing::{App, counted, enter, kept};
use opentelemetry::trace::Tracing;
use otel_sdk::env::EnvBatches;
use otel_sdk::error::OTelSdkResult;
use otel_sdk::resource::Resource;
use otel_sdk::trace::{
    Build, ExportSchedule, Exporter, Exports, Losses, ManualClock, SpanData, SpanProcessor,
    Unfinished, WithExporter, finish,
};
use otel_sdk_base::Accepted;
use std::alloc::AllocError;
use std::default::Default;
use std::rc::Rc;

/// An exporter that never allocates. It counts the spans that it accepts, and their attributes,
/// events and links.
#[derive(Drop)]
pub struct Tally {
    accepted: Accepted<SpanData>,
    pub spans: usize,
    pub parts: usize,
}

impl Tally {
    pub fn new() -> Tally {
        Tally {
            accepted: Accepted::new(),
            spans: 0,
            parts: 0,
        }
    }
}

impl Exporter<SpanData> for Tally {
    ghost use Rattle.otel_sdk_base.specs.Export.{any_calls};

    ghost accepted = { λ e. e.accepted.batches };

    ghost calls = { any_calls };

    fn export(&mut self, batch: &[SpanData]) -> OTelSdkResult {
        self.accepted = self.accepted.and(batch);
        self.spans += batch.len();
        for span in batch {
            let (events, links) = (&span.events.events, &span.links.links);
            self.parts += span.attributes.len() + events.len() + links.len();
        }
        Ok(())
    }

    fn force_flush(&mut self) -> OTelSdkResult {
        Ok(())
    }

    fn shutdown(&mut self) -> OTelSdkResult {
        Ok(())
    }

    fn set_resource(&mut self, resource: Rc<Resource>) {
        drop(resource);
    }

    fn losses(&self) -> Losses {
        Losses::default()
    }

    fn last_message(&self) -> Option<&str> {
        None
    }
}

/// An exporter that never allocates. It gives up one span, and its receiver says why.
#[derive(Drop)]
struct Lossy;

impl Exporter<SpanData> for Lossy {
    ghost use Rattle.std.specs.Prelude.{Some, []};
    ghost use Rattle.std.specs.Prelude.{codes};

    ghost accepted = { λ _. [] };

    ghost calls = { record {
      refuses = λ _ _ _. Unit {0};
      flushes = λ _ _ _. Unit {0};
      shuts_down = λ _ _ _. Unit {0};
      takes_resource = λ _ _ _. Unit {0};
      flushed = λ _ _. Unit {0};
      losses = λ _. record { rejected = 0; given_up = 1; dropped = 0; held = 0 };
      last_message = λ _. Some (codes "full");
    } };

    fn export(&mut self, _batch: &[SpanData]) -> OTelSdkResult {
        Ok(())
    }

    fn force_flush(&mut self) -> OTelSdkResult {
        Ok(())
    }

    fn shutdown(&mut self) -> OTelSdkResult {
        Ok(())
    }

    fn set_resource(&mut self, resource: Rc<Resource>) {
        drop(resource);
    }

    fn losses(&self) -> Losses {
        Losses {
            rejected: 0,
            given_up: 1,
            dropped: 0,
            held: 0,
        }
    }

    fn last_message(&self) -> Option<&str> {
        Some("full")
    }
}

pub fn play<R: Print>(rt: HostRuntime, lines: &Lines<'_, R>) {
    if lines.begin("tracing-flush") {
        lines.end(flush(rt, lines));
    }
    if lines.begin("tracing-export-if-due") {
        lines.end(export_if_due(rt, lines));
    }
    if lines.begin("tracing-shutdown") {
        lines.end(shutdown(rt, lines));
    }
    if lines.begin("last-export") {
        lines.end(last_export(rt, lines));
    }
    if lines.begin("last-message") {
        lines.end(last_message(rt, lines));
    }
}

/// Shuts down. Returns whether no span is open then, and whether so many spans with so many parts
/// were exported in all, and none was dropped. Takes no memory.
pub fn has_exported(app: &mut App, spans: usize, parts: usize) -> bool {
    let is_done = app.shutdown().is_ok();
    let tally = app.processors().1.exporter();
    let is_whole = tally.spans == spans && tally.parts == parts;
    is_done && is_whole && app.open_spans() == 0 && app.processors().dropped_spans() == 0
}

/// A flush of an ended span, while another one is open. After an error the ended one stays queued.
fn flush<R: Print>(rt: HostRuntime, lines: &Lines<'_, R>) -> Result<(), AllocError> {
    let mut app = kept(rt)?;
    let ended = enter(&mut app)?;
    app.exit(ended);
    enter(&mut app)?;
    let answer = app.flush();
    let queued = if answer.is_ok() { 0 } else { 1 };
    lines.answer_named("flushed", answer);
    let is_due = app.open_spans() == 1 && app.processors().queued_spans() == queued;
    lines.due(is_due && app.processors().dropped_spans() == 0);
    Ok(())
}

/// An export that is due. After an error the span stays queued.
fn export_if_due<R: Print>(rt: HostRuntime, lines: &Lines<'_, R>) -> Result<(), AllocError> {
    let mut app = kept(rt)?;
    let ended = enter(&mut app)?;
    app.exit(ended);
    let clock = ManualClock::new(1);
    let mut schedule = ExportSchedule::new(&clock, &NO_TIME);
    let answer = schedule.export_if_due(&mut app, &clock);
    let queued = if answer.is_ok() { 0 } else { 1 };
    let is_due = app.processors().queued_spans() == queued;
    lines.answer_named("exported", answer);
    lines.due(is_due && schedule.time_left(&app).is_some() == (queued == 1));
    Ok(())
}

/// A shutdown with two open spans. After an error they have ended, and another shutdown exports
/// them.
fn shutdown<R: Print>(rt: HostRuntime, lines: &Lines<'_, R>) -> Result<(), AllocError> {
    let mut app = kept(rt)?;
    enter(&mut app)?;
    enter(&mut app)?;
    let answer = app.shutdown();
    let is_done = answer.is_ok();
    lines.answer_of(answer);
    let queued = if is_done { 0 } else { 2 };
    let is_due = app.open_spans() == 0 && app.processors().queued_spans() == queued;
    let is_again = app.shutdown().is_ok();
    let is_closed = app.processors().is_shut_down() == (is_done || is_again);
    lines.due(is_due && is_closed && app.processors().dropped_spans() == 0);
    Ok(())
}

/// An export is due at once, and has no time for another try.
const NO_TIME: EnvBatches = EnvBatches {
    max_queue_size: 2,
    max_export_batch_size: 2,
    schedule_delay_millis: 0,
    export_timeout_millis: 0,
};

/// A last export of two open spans.
fn last_export<R: Print>(rt: HostRuntime, lines: &Lines<'_, R>) -> Result<(), AllocError> {
    let mut app = kept(rt)?;
    enter(&mut app)?;
    enter(&mut app)?;
    let answer = finish(&mut app, &ManualClock::new(1), &NO_TIME);
    let queued = if answer.is_ok() { 0 } else { 2 };
    match answer {
        Err(
            Unfinished {
                losses: _,
                error: Some(error),
                message: _,
            },
        ) => lines.answer(&error),
        answer => lines.answer_named("finished", answer),
    }
    lines.due(app.open_spans() == 0 && app.processors().queued_spans() == queued);
    Ok(())
}

/// A last export after which a span is lost. The receiver's message is copied.
fn last_message<R: Print>(rt: HostRuntime, lines: &Lines<'_, R>) -> Result<(), AllocError> {
    let mut app = counted(rt).with_exporter(Lossy).build(rt.alloc(), "cart")?;
    enter(&mut app)?;
    let Err(unfinished) = finish(&mut app, &ManualClock::new(1), &NO_TIME) else {
        lines.due(false);
        return Ok(());
    };
    lines.answer_named("told", unfinished.message);
    lines.due(unfinished.losses.total() == 1 && app.open_spans() == 0);
    Ok(())
}
