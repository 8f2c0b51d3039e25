//! The results and effects of references to spans.
use crate::span::Silent;
use otel_base::{Key, KeyValue, StringValue, Value};
use otel_context::{Context, Span, Spans, Status};
use otel_examples::recording::RecordingSpan;
use otel_ids::SpanId;
use std::alloc::Global;
use std::cell::Cell;
use std::process::Abort;
use std::test::Fail;
use test_support::{span, span_context};

/// The context with this span, which is inserted into the table.
fn made(rt: &impl Abort, alloc: Global, spans: &mut Spans<RecordingSpan>, id: u64) -> Context {
    match Context::new().with_span(alloc, spans, span(alloc, id)) {
        Ok(context) => context,
        Err(refused) => {
            drop(refused);
            panic!(rt; "no room")
        }
    }
}

/// Asserts that each call through a reference to the context's span does nothing.
fn assert_no_span(
    rt: &impl Abort,
    alloc: Global,
    context: &Context,
    spans: &mut Spans<RecordingSpan>,
) -> Result<(), Fail> {
    let mut reference = context.span(spans);
    assert!(rt; !reference.is_recording());
    let name = StringValue::from("n");
    reference.add_event_with_timestamp(alloc, name, 1, Vec::new(alloc))?;
    reference.add_event(alloc, StringValue::from("n"), Vec::new(alloc), 1)?;
    let silent = Silent {
        asked: Cell::new(0),
    };
    reference.record_error(alloc, &silent, 1)?;
    assert_eq!(rt; silent.asked.get(), 0);
    let attribute = KeyValue::new(Key::from("k"), Value::from(true));
    reference.set_attribute(alloc, attribute)?;
    reference.set_attributes(alloc, Vec::new(alloc))?;
    reference.add_link(alloc, span_context(9), Vec::new(alloc))?;
    reference.set_status(Status::Ok);
    reference.update_name(StringValue::from("n"));
    reference.end_with_timestamp(2);
    reference.end(3);
    assert!(rt; !reference.is_recording());
    Ok(())
}

#[test]
fn a_remote_span_has_no_number_and_takes_nothing(rt: HostRuntime) -> Result<(), Fail> {
    let mut spans = Spans::new(rt.alloc());
    let local = made(&rt, rt.alloc(), &mut spans, 5);
    assert_eq!(rt; local.span_number(), Some(0));
    let remote = local.with_remote_span_context(rt.alloc(), span_context(7))?;
    assert!(rt; remote.has_active_span());
    assert_eq!(rt; remote.span_number(), None);
    assert_no_span(&rt, rt.alloc(), &remote, &mut spans)?;
    assert_eq!(rt;
        remote.span(&mut spans).span_context().span_id(),
        SpanId::from(7)
    );
    let untouched = spans.get(0).map_or(false, |span| {
        span.is_recording() && span.effects().is_empty() && span.name() == "work"
    });
    assert!(rt; untouched);
    Ok(())
}

#[test]
fn a_span_that_was_taken_leaves_its_span_context(rt: HostRuntime) -> Result<(), Fail> {
    let mut spans = Spans::new(rt.alloc());
    let context = made(&rt, rt.alloc(), &mut spans, 5);
    assert!(rt; context.span(&mut spans).is_recording());
    assert!(rt; spans.take(0).is_some());
    assert!(rt; context.has_active_span());
    assert_eq!(rt; context.span_context().span_id(), SpanId::from(5));
    assert_no_span(&rt, rt.alloc(), &context, &mut spans)?;
    assert!(rt; spans.is_empty());
    Ok(())
}

#[test]
fn a_context_finds_the_span_of_its_number_in_each_table(rt: HostRuntime) -> Result<(), Fail> {
    let mut first = Spans::new(rt.alloc());
    let mut second = Spans::new(rt.alloc());
    let context = made(&rt, rt.alloc(), &mut first, 5);
    let other = made(&rt, rt.alloc(), &mut second, 6);
    context.span(&mut second).end(8);
    assert_eq!(rt; first.get(0).and_then(|span| span.ended()), None);
    assert_eq!(rt; second.get(0).and_then(|span| span.ended()), Some(8));
    // The reference has the context's span context, even if the span has another one.
    assert_eq!(rt;
        context.span(&mut second).span_context().span_id(),
        SpanId::from(5)
    );
    assert_eq!(rt; other.span_context().span_id(), SpanId::from(6));
    Ok(())
}
