//! Exporters of spans.
use crate::lines::Lines;
use crate::sdk::spans::given;
use opentelemetry::StringValue;
use opentelemetry::trace::{Event, SpanContext, SpanId, TraceFlags, TraceId, TraceState};
use otel_sdk::trace::{Exporter, FinishedSpans, InMemorySpanExporter, SpanData};
use otel_waterfall::{
    PageSpan, PageTrace, WaterfallExporter, duration_text, html_page, shown_name,
};
use std::alloc::{AllocError, Global};
use std::io;

pub fn play<R: Print>(alloc: Global, lines: &Lines<'_, R>) {
    if lines.begin("exporter-export") {
        lines.end(export(alloc, lines));
    }
    if lines.begin("finished-spans") {
        lines.end(finished(alloc, lines));
    }
    if lines.begin("accepted-items") {
        lines.end(accepted(alloc, lines));
    }
    if lines.begin("waterfall-export") {
        lines.end(drawn(alloc, lines));
    }
    if lines.begin("html-page") {
        lines.end(page(alloc, lines));
    }
    if lines.begin("shown-name") {
        let name = shown_name(alloc, false, "work");
        lines.answer_named("made", name.map(|_| ()));
    }
    if lines.begin("duration-text") {
        lines.answer_named("made", duration_text(alloc, 0, 1).map(|_| ()));
    }
}

/// An ended, sampled span.
pub fn span(alloc: Global) -> Result<SpanData, AllocError> {
    let (trace_id, span_id) = (TraceId::from(1), SpanId::from(2));
    let state = TraceState::NONE;
    let mut span = given(alloc, Vec::new(alloc))?;
    span.span_context = SpanContext::new(trace_id, span_id, TraceFlags::SAMPLED, false, state);
    span.end_time = 2;
    Ok(span)
}

fn export<R: Print>(alloc: Global, lines: &Lines<'_, R>) -> Result<(), AllocError> {
    let batch = [span(alloc)?];
    let mut exporter = InMemorySpanExporter::new(alloc);
    lines.answer_named("accepted", exporter.export(&batch));
    lines.free_ok("InMemoryExporter::force_flush", exporter.force_flush());
    lines.free_ok("InMemoryExporter::shutdown", exporter.shutdown());
    Ok(())
}

fn finished<R: Print>(alloc: Global, lines: &Lines<'_, R>) -> Result<(), AllocError> {
    let batch = [span(alloc)?];
    let mut exporter = InMemorySpanExporter::new(alloc);
    if exporter.export(&batch).is_err() {
        return Err(AllocError);
    }
    lines.answer_of(exporter.get_finished_spans().map(|spans| spans.len()));
    Ok(())
}

fn accepted<R: Print>(alloc: Global, lines: &Lines<'_, R>) -> Result<(), AllocError> {
    let batch = [span(alloc)?];
    let mut exporter = InMemorySpanExporter::new(alloc);
    if exporter.export(&batch).is_err() {
        return Err(AllocError);
    }
    lines.answer_of(exporter.get_items().map(|spans| spans.len()));
    Ok(())
}

/// Returns a span with this id and this parent, and an event.
pub fn child(alloc: Global, id: u64, parent: u64) -> Result<SpanData, AllocError> {
    let mut child = span(alloc)?;
    let (trace_id, span_id) = (TraceId::from(1), SpanId::from(id));
    let state = TraceState::NONE;
    child.span_context = SpanContext::new(trace_id, span_id, TraceFlags::SAMPLED, false, state);
    child.parent_span_id = SpanId::from(parent);
    let event = Event::new(StringValue::from("e"), 1, Vec::new(alloc), 0);
    child.events.events.push(event)?;
    Ok(child)
}

fn drawn<R: Print>(alloc: Global, lines: &Lines<'_, R>) -> Result<(), AllocError> {
    let batch = [
        span(alloc)?,
        child(alloc, 3, 2)?,
        child(alloc, 4, 3)?,
        child(alloc, 5, 9)?,
    ];
    let mut exporter = WaterfallExporter::new(alloc, io::sink());
    lines.answer_named("drawn", exporter.export(&batch));
    lines.free_ok("WaterfallExporter::force_flush", exporter.force_flush());
    lines.free_ok("WaterfallExporter::shutdown", exporter.shutdown());
    Ok(())
}

/// Returns a span of a page.
fn of_service(alloc: Global, id: u64, parent: u64) -> Result<PageSpan, AllocError> {
    Ok(PageSpan {
        service: StringValue::from("s"),
        data: child(alloc, id, parent)?,
    })
}

fn page<R: Print>(alloc: Global, lines: &Lines<'_, R>) -> Result<(), AllocError> {
    let spans = vec![in alloc; of_service(alloc, 3, 0)?, of_service(alloc, 4, 3)?]?;
    let traces = [PageTrace {
        trace_id: TraceId::from(1),
        start: StringValue::from("now"),
        spans,
    }];
    lines.answer_named("made", html_page(alloc, &traces).map(|_| ()));
    Ok(())
}
