//! The effects that a span keeps.
use otel_base::{Key, KeyValue, StringValue, Value};
use otel_context::{Span, Status};
use otel_examples::recording::Effect;
use std::test::Fail;
use test_support::{span, span_context};

#[test]
fn a_span_keeps_what_the_calls_give_it(rt: HostRuntime) -> Result<(), Fail> {
    let mut span = span(rt.alloc(), 1);
    let none = Vec::new(rt.alloc());
    span.add_event(rt.alloc(), StringValue::from("now"), none, 3)?;
    let none = Vec::new(rt.alloc());
    span.add_link(rt.alloc(), span_context(4), none)?;
    span.update_name(StringValue::from("other"));
    span.set_status(Status::error(StringValue::from("late")));
    span.end(9);
    assert!(rt; matches!(span.effects(), [Effect::Event(_, 3, _), Effect::Link(_, _)]));
    assert_eq!(rt; span.name(), "other");
    assert!(rt; *span.status() == Status::error(StringValue::from("late")));
    assert_eq!(rt; span.ended(), Some(9));
    Ok(())
}

#[test]
fn each_call_fails_once_there_is_no_room_left(rt: HostRuntime) -> Result<(), Fail> {
    let alloc = rt.alloc();
    let mut span = span(alloc, 1);
    span.fail_after(1);
    span.add_event(alloc, StringValue::from("first"), Vec::new(alloc), 3)?;
    let attribute = KeyValue::new(Key::from("k"), Value::from(1));
    assert!(rt; span.set_attribute(alloc, attribute).is_err());
    assert!(rt;
        span.add_link(alloc, span_context(4), Vec::new(alloc))
            .is_err()
    );
    let event = StringValue::from("second");
    assert!(rt; span.add_event(alloc, event, Vec::new(alloc), 5).is_err());
    assert!(rt; matches!(span.effects(), [Effect::Event(_, 3, _)]));
    assert!(rt; span.is_recording());
    Ok(())
}
