//! Processors of spans.
use crate::lines::Lines;
use crate::sdk::export::{child, span};
use crate::sdk::tracer::resource;
use crate::sdk::tracing::exports::Tally;
use opentelemetry::baggage::Baggage;
use opentelemetry::{Context, Key, StringValue};
use otel_sdk::error::OTelSdkResult;
use otel_sdk::trace::{
    BaggageSpanProcessor, BatchSpanProcessor, ConfiguredProcessor, InMemorySpanExporter, SdkSpan,
    SimpleSpanProcessor, SpanLimits, SpanProcessor,
};
use std::alloc::{AllocError, Global};
use std::rc::Rc;

type Batches = BatchSpanProcessor<Tally>;

type KeptBatches = BatchSpanProcessor<InMemorySpanExporter>;

type Singles = SimpleSpanProcessor<Tally>;

type KeptSingles = SimpleSpanProcessor<InMemorySpanExporter>;

pub fn play<R: Print>(alloc: Global, lines: &Lines<'_, R>) {
    of_batches(alloc, lines);
    of_configured(alloc, lines);
    of_singles(alloc, lines);
    if lines.begin("processors-reserve") {
        reserve(lines, (batches(alloc), batches(alloc)));
    }
    if lines.begin("processors-on-end") {
        lines.end(end_in_two(alloc, lines));
    }
    if lines.begin("baggage-processor-on-start") {
        lines.end(copy_baggage(alloc, lines));
    }
    if lines.begin("baggage-processor-flush") {
        lines.end(flush_baggage(alloc, lines));
    }
}

fn of_batches<R: Print>(alloc: Global, lines: &Lines<'_, R>) {
    if lines.begin("batch-processor-reserve") {
        reserve(lines, batches(alloc));
    }
    if lines.begin("batch-processor-on-end") {
        let call = "BatchSpanProcessor::on_end";
        lines.end(end(alloc, lines, call, batches(alloc)));
    }
    if lines.begin("batch-processor-on-end-unreserved") {
        lines.end(end_unreserved(alloc, lines));
    }
    if lines.begin("batch-processor-force-flush") {
        lines.end(flush(alloc, lines, |it: &mut KeptBatches| it.force_flush()));
    }
    if lines.begin("batch-processor-shutdown") {
        lines.end(flush(alloc, lines, |it: &mut KeptBatches| it.shutdown()));
    }
    if lines.begin("batch-processor-set-resource") {
        let call = "BatchSpanProcessor::set_resource";
        lines.end(set_resource(alloc, lines, call, batches(alloc)));
    }
}

fn of_configured<R: Print>(alloc: Global, lines: &Lines<'_, R>) {
    if lines.begin("configured-processor-reserve") {
        reserve(lines, ConfiguredProcessor::new(batches(alloc), false));
    }
    if lines.begin("configured-processor-off") {
        lines.end(flush_off(alloc, lines));
    }
}

fn of_singles<R: Print>(alloc: Global, lines: &Lines<'_, R>) {
    if lines.begin("simple-processor-reserve") {
        reserve(lines, singles(alloc));
    }
    if lines.begin("simple-processor-on-end") {
        let call = "SimpleSpanProcessor::on_end";
        lines.end(end(alloc, lines, call, singles(alloc)));
    }
    if lines.begin("simple-processor-on-end-refused") {
        lines.end(end_refused(alloc, lines));
    }
    if lines.begin("simple-processor-force-flush") {
        lines.end(again(alloc, lines, |it: &mut KeptSingles| it.force_flush()));
    }
    if lines.begin("simple-processor-shutdown") {
        lines.end(again(alloc, lines, |it: &mut KeptSingles| it.shutdown()));
    }
    if lines.begin("simple-processor-set-resource") {
        let call = "SimpleSpanProcessor::set_resource";
        lines.end(set_resource(alloc, lines, call, singles(alloc)));
    }
}

/// A processor whose exporter takes no memory.
fn batches(alloc: Global) -> Batches {
    BatchSpanProcessor::new(alloc, Tally::new(), Default::default())
}

/// A processor whose exporter takes memory for each span.
fn kept_batches(alloc: Global) -> KeptBatches {
    BatchSpanProcessor::new(alloc, InMemorySpanExporter::new(alloc), Default::default())
}

/// A processor of single spans whose exporter takes no memory.
fn singles(alloc: Global) -> Singles {
    SimpleSpanProcessor::new(alloc, Tally::new())
}

/// A processor of single spans whose exporter takes memory for each one.
fn kept_singles(alloc: Global) -> KeptSingles {
    SimpleSpanProcessor::new(alloc, InMemorySpanExporter::new(alloc))
}

/// A reservation. The processor is unchanged, whatever the answer.
fn reserve<R: Print, P: SpanProcessor>(lines: &Lines<'_, R>, mut processor: P) {
    lines.answer_named("reserved", processor.reserve(3));
    lines.due(processor.queued_spans() == 0 && processor.dropped_spans() == 0);
}

/// The end of a span for which memory was reserved: it takes none, and isn't dropped.
fn end<R: Print, P: SpanProcessor>(
    alloc: Global,
    lines: &Lines<'_, R>,
    call: &str,
    mut processor: P,
) -> Result<(), AllocError> {
    let span = span(alloc)?;
    processor.reserve(1)?;
    processor.on_end(span);
    lines.free(call, &processor.dropped_spans());
    lines.due(processor.queued_spans() <= 1);
    Ok(())
}

/// Prints that no span was dropped, or that memory ran out.
fn dropped_none<R: Print, P: SpanProcessor>(lines: &Lines<'_, R>, processor: &P) {
    if processor.dropped_spans() == 0 {
        lines.answer(&"not dropped");
    } else {
        lines.answer(&AllocError);
    }
}

/// The end of a span for which no memory was reserved: it is queued, or dropped and counted.
fn end_unreserved<R: Print>(alloc: Global, lines: &Lines<'_, R>) -> Result<(), AllocError> {
    let span = span(alloc)?;
    let mut processor = batches(alloc);
    processor.on_end(span);
    dropped_none(lines, &processor);
    lines.due(processor.queued_spans() as u64 + processor.dropped_spans() == 1);
    Ok(())
}

/// The end of a span in two processors, for which memory was reserved. The first one gets a copy,
/// or counts the span, and the second one gets the span in any case.
fn end_in_two<R: Print>(alloc: Global, lines: &Lines<'_, R>) -> Result<(), AllocError> {
    let span = child(alloc, 2, 1)?;
    let mut processors = (batches(alloc), batches(alloc));
    processors.reserve(1)?;
    processors.on_end(span);
    dropped_none(lines, &processors);
    let (first, second) = &processors;
    let is_told = first.queued_spans() as u64 + first.dropped_spans() == 1;
    lines.due(is_told && second.queued_spans() == 1 && second.dropped_spans() == 0);
    Ok(())
}

/// A processor with a queued span, which the call exports.
fn flush<R: Print, F: FnOnce(&mut KeptBatches) -> OTelSdkResult>(
    alloc: Global,
    lines: &Lines<'_, R>,
    call: F,
) -> Result<(), AllocError> {
    let span = span(alloc)?;
    let mut processor = kept_batches(alloc);
    processor.reserve(1)?;
    processor.on_end(span);
    exported(lines, &mut processor, call);
    Ok(())
}

/// Makes the call, which exports the queued span, or leaves it in the queue.
fn exported<R: Print, P: SpanProcessor, F: FnOnce(&mut P) -> OTelSdkResult>(
    lines: &Lines<'_, R>,
    processor: &mut P,
    call: F,
) {
    let answer = call(processor);
    let left = if answer.is_ok() { 0 } else { 1 };
    lines.answer_named("done", answer);
    lines.due(processor.queued_spans() == left && processor.dropped_spans() == 0);
}

/// The end of a span that the exporter refuses if out of memory: it is then queued.
fn end_refused<R: Print>(alloc: Global, lines: &Lines<'_, R>) -> Result<(), AllocError> {
    let span = span(alloc)?;
    let mut processor = kept_singles(alloc);
    processor.reserve(1)?;
    processor.on_end(span);
    if processor.queued_spans() == 0 {
        lines.answer(&"exported");
    } else {
        lines.answer(&AllocError);
    }
    lines.due(processor.dropped_spans() == 0);
    Ok(())
}

/// The call after an end that may have left its span in the queue.
fn again<R: Print, F: FnOnce(&mut KeptSingles) -> OTelSdkResult>(
    alloc: Global,
    lines: &Lines<'_, R>,
    call: F,
) -> Result<(), AllocError> {
    let span = span(alloc)?;
    let mut processor = kept_singles(alloc);
    processor.reserve(1)?;
    processor.on_end(span);
    exported(lines, &mut processor, call);
    Ok(())
}

/// A resource that the processor tells its exporter, which shares it.
fn set_resource<R: Print, P: SpanProcessor>(
    alloc: Global,
    lines: &Lines<'_, R>,
    call: &str,
    mut processor: P,
) -> Result<(), AllocError> {
    let resource = Rc::new(alloc, resource(alloc)?)?;
    lines.free_ok(call, processor.set_resource(&resource));
    Ok(())
}

/// The calls of a processor that is off.
fn flush_off<R: Print>(alloc: Global, lines: &Lines<'_, R>) -> Result<(), AllocError> {
    let resource = Rc::new(alloc, resource(alloc)?)?;
    let mut processor = ConfiguredProcessor::new(kept_batches(alloc), true);
    let told = processor.set_resource(&resource);
    lines.free_ok("ConfiguredProcessor::set_resource", told);
    let flushed = processor.force_flush();
    lines.free_ok("ConfiguredProcessor::force_flush", flushed);
    let closed = processor.shutdown();
    lines.free_ok("ConfiguredProcessor::shutdown", closed);
    Ok(())
}

/// A context with two members whose keys and values are owned.
fn with_members(alloc: Global) -> Result<Context, AllocError> {
    let mut baggage = Baggage::new(alloc);
    for (key, value) in [("tenant", "acme"), ("region", "eu")] {
        let key = Key::from(String::from_str(alloc, key)?);
        let value = StringValue::from(String::from_str(alloc, value)?);
        drop(baggage.insert(key, value)?);
    }
    Context::new().with_baggage(alloc, baggage)
}

/// The start of a span under two members: each is copied, or counted as missed.
fn copy_baggage<R: Print>(alloc: Global, lines: &Lines<'_, R>) -> Result<(), AllocError> {
    let parent = with_members(alloc)?;
    let mut span = SdkSpan::new(alloc, span(alloc)?, SpanLimits::default())?;
    let mut processor = BaggageSpanProcessor::all();
    processor.on_start(alloc, &mut span, &parent);
    let missed = processor.missed_members();
    if missed == 0 {
        lines.answer(&"copied");
    } else {
        lines.answer(&AllocError);
    }
    let copied = span.data().map_or(0, |data| data.attributes.len());
    lines.due(copied as u64 + missed == 2);
    Ok(())
}

/// The calls that do nothing.
fn flush_baggage<R: Print>(alloc: Global, lines: &Lines<'_, R>) -> Result<(), AllocError> {
    let resource = Rc::new(alloc, resource(alloc)?)?;
    let mut processor = BaggageSpanProcessor::all();
    let told = processor.set_resource(&resource);
    lines.free_ok("BaggageSpanProcessor::set_resource", told);
    let flushed = processor.force_flush();
    lines.free_ok("BaggageSpanProcessor::force_flush", flushed);
    let closed = processor.shutdown();
    lines.free_ok("BaggageSpanProcessor::shutdown", closed);
    Ok(())
}
