//! The value that starts no spans.
use opentelemetry::trace::{LocalTracing, NoopSource, NoopTracing, Status, Tracing};
use opentelemetry::{Key, KeyValue, StringValue, Value};
use otel_propagators::W3cPropagator;
use std::collections::HashMap;
use std::test::Fail;
use test_support::{held, map_of};

const TRACEPARENT: &str = "00-0af7651916cd43dd8448eb211c80319c-b7ad6b7169203331-01";

/// Serves a request, and calls another service. It knows no more than that something traces it.
fn serve(
    tracing: &mut impl Tracing,
    headers: &HashMap<String, String>,
) -> Result<HashMap<String, String>, Fail> {
    let alloc = tracing.alloc();
    let propagator = W3cPropagator::new(alloc)?;
    let caller = tracing.receive(&propagator, headers)?;
    let serve = tracing.enter("serve")?;
    tracing.set_attribute(KeyValue::new(Key::from("k"), Value::I64(1)))?;
    tracing.add_event(StringValue::from("e"), Vec::new(alloc))?;
    tracing.record_error(&402)?;
    tracing.set_status(Status::Ok)?;
    let task = tracing.start("task")?;
    let turn = tracing.attach(task.clone()?)?;
    let mut sent = HashMap::new(alloc);
    tracing.send(&propagator, &mut sent)?;
    tracing.detach(turn);
    tracing.end(&task);
    tracing.exit(serve);
    tracing.detach(caller);
    Ok(sent)
}

#[test]
fn a_traceparent_is_carried_on(rt: HostRuntime) -> Result<(), Fail> {
    let alloc = rt.alloc();
    let mut tracing = LocalTracing::new(alloc, NoopSource::new())?;
    assert!(rt; tracing.is_disabled());
    let received = map_of(
        alloc,
        &[("traceparent", TRACEPARENT), ("tracestate", "a=1")],
    )?;
    for _ in 0..2 {
        let sent = serve(&mut tracing, &received)?;
        assert_eq!(rt; held(&sent, "traceparent"), TRACEPARENT);
        assert_eq!(rt; held(&sent, "tracestate"), "a=1");
        assert!(rt; !tracing.context().has_active_span());
    }
    assert_eq!(rt; (tracing.open_spans(), tracing.unrecorded()), (0, 0));
    Ok(())
}

#[test]
fn nothing_is_sent_on_that_was_not_received(rt: HostRuntime) -> Result<(), Fail> {
    let alloc = rt.alloc();
    let mut tracing = LocalTracing::new(alloc, NoopSource::new())?;
    let sent = serve(&mut tracing, &HashMap::new(alloc))?;
    assert_eq!(rt; held(&sent, "traceparent"), "none");
    Ok(())
}

#[test]
fn work_runs_once(rt: HostRuntime) -> Result<(), Fail> {
    let mut tracing = LocalTracing::new(rt.alloc(), NoopSource::new())?;
    let open = tracing.in_span("serve", |tracing: &mut NoopTracing| tracing.open_spans());
    assert_eq!(rt; open, 0);
    let out = tracing.try_in_span("pay", |_: &mut NoopTracing| -> Result<u8, u16> { Err(402) });
    assert!(rt; out == Err(402));
    assert_eq!(rt; tracing.unrecorded(), 0);
    Ok(())
}
