//! The ends of spans, for which memory was reserved at the start.
use crate::lines::Lines;
use crate::sdk::tracing::exports::has_exported;
use crate::sdk::tracing::{App, app, enter, two};
use opentelemetry::trace::{Entered, Tracing};
use otel_sdk::trace::{Exports, SpanProcessor};
use std::alloc::AllocError;

/// The number of spans that are open together in each half.
const HALF: usize = 10;

pub fn play<R: Print>(rt: HostRuntime, lines: &Lines<'_, R>) {
    if lines.begin("tracing-exit") {
        lines.end(exit(rt, lines));
    }
    if lines.begin("tracing-exit-around-a-flush") {
        lines.end(exit_around_a_flush(rt, lines));
    }
    if lines.begin("tracing-exit-in-any-order") {
        lines.end(exit_in_any_order(rt, lines));
    }
    if lines.begin("tracing-end") {
        lines.end(end(rt, lines));
    }
    if lines.begin("tracing-exit-to-two") {
        lines.end(exit_to_two(rt, lines));
    }
}

/// Prints the number of queued spans after an exit.
fn queued<R: Print>(lines: &Lines<'_, R>, app: &App) {
    lines.free("Tracing::exit", &app.processors().queued_spans());
}

/// An exit of the outer one of two spans.
fn exit<R: Print>(rt: HostRuntime, lines: &Lines<'_, R>) -> Result<(), AllocError> {
    let mut app = app(rt)?;
    let outer = enter(&mut app)?;
    enter(&mut app)?;
    app.exit(outer);
    queued(lines, &app);
    lines.due(app.open_spans() == 0 && has_exported(&mut app, 2, 0));
    Ok(())
}

/// Enters that many spans. Returns the first one.
fn enter_half(app: &mut App) -> Result<Entered, AllocError> {
    let first = enter(app)?;
    for _ in 1..HALF {
        enter(app)?;
    }
    Ok(first)
}

/// Two halves of spans that are open together. One ends before a flush, and one after it.
fn exit_around_a_flush<R: Print>(rt: HostRuntime, lines: &Lines<'_, R>) -> Result<(), AllocError> {
    let mut app = app(rt)?;
    let outer = enter_half(&mut app)?;
    let inner = enter_half(&mut app)?;
    app.exit(inner);
    queued(lines, &app);
    lines.free_ok("Exports::flush", app.flush());
    app.exit(outer);
    queued(lines, &app);
    lines.due(has_exported(&mut app, 2 * HALF, 0));
    Ok(())
}

/// Two spans in two contexts, of which the older one is exited first.
fn exit_in_any_order<R: Print>(rt: HostRuntime, lines: &Lines<'_, R>) -> Result<(), AllocError> {
    let mut app = app(rt)?;
    let context = app.context().clone()?;
    let older = enter(&mut app)?;
    let attached = app.attach(context)?;
    let newer = enter(&mut app)?;
    app.exit(older);
    queued(lines, &app);
    app.exit(newer);
    queued(lines, &app);
    app.detach(attached);
    lines.due(has_exported(&mut app, 2, 0));
    Ok(())
}

/// The end of a span that was started, and isn't the current one.
fn end<R: Print>(rt: HostRuntime, lines: &Lines<'_, R>) -> Result<(), AllocError> {
    let mut app = app(rt)?;
    let Ok(started) = app.start("s") else {
        return Err(AllocError);
    };
    app.end(&started);
    lines.free("Tracing::end", &app.processors().queued_spans());
    lines.due(app.open_spans() == 0 && has_exported(&mut app, 1, 0));
    Ok(())
}

/// An exit of a span with two exporters: the first one gets a copy of the data or, out of memory,
/// counts the span. The second one gets the span in any case.
fn exit_to_two<R: Print>(rt: HostRuntime, lines: &Lines<'_, R>) -> Result<(), AllocError> {
    let mut app = two(rt)?;
    let entered = enter(&mut app)?;
    app.set("k", "v")?;
    app.exit(entered);
    let dropped = app.processors().dropped_spans();
    if dropped == 0 {
        lines.answer(&"copied");
    } else {
        lines.answer(&AllocError);
    }
    let (first, second) = app.processors();
    let is_told = first.queued_spans() as u64 + dropped == 1;
    lines.due(is_told && second.queued_spans() == 1 && second.dropped_spans() == 0);
    Ok(())
}
