//! The results of a span table's calls.
use otel_context::{
    Context, ContextStack, Span, SpanCause, SpanRefused, Spans, mark_span_as_active,
};
use otel_examples::recording::RecordingSpan;
use otel_ids::SpanId;
use std::alloc::{AllocError, Global};
use std::process::Abort;
use std::rc::Rc;
use std::test::Fail;
use test_support::{LAST_NUMBER, NUMBERS, filled, name_of, span, span_context};

/// Inserts a span. Returns its number.
fn inserted(rt: &impl Abort, spans: &mut Spans<RecordingSpan>, span: RecordingSpan) -> u64 {
    match spans.insert(span) {
        Ok(number) => number,
        Err(refused) => {
            drop(refused);
            panic!(rt; "no room")
        }
    }
}

/// The span id of the span with the number, or 0.
fn id_at(spans: &Spans<RecordingSpan>, number: u64) -> SpanId {
    spans
        .get(number)
        .map_or(SpanId::INVALID, |span| span.span_context().span_id())
}

#[test]
fn a_taken_number_is_not_given_out_again(rt: HostRuntime) -> Result<(), Fail> {
    let mut spans = Spans::new(rt.alloc());
    assert!(rt; spans.is_empty());
    assert_eq!(rt; inserted(&rt, &mut spans, span(rt.alloc(), 5)), 0);
    assert!(rt; spans.take(0).is_some());
    assert!(rt; spans.take(0).is_none());
    assert_eq!(rt; inserted(&rt, &mut spans, span(rt.alloc(), 6)), 1);
    assert_eq!(rt; spans.len(), 1);
    assert_eq!(rt; spans.next_number(), 2);
    assert_eq!(rt; id_at(&spans, 1), SpanId::from(6));
    Ok(())
}

#[test]
fn past_the_last_number_the_span_comes_back(rt: HostRuntime) -> Result<(), Fail> {
    let mut spans = Spans::starting_at(rt.alloc(), LAST_NUMBER);
    assert_eq!(rt; inserted(&rt, &mut spans, span(rt.alloc(), 5)), LAST_NUMBER);
    let Err(refused) = spans.insert(span(rt.alloc(), 6)) else {
        panic!(&rt; "a number was left")
    };
    assert!(rt; matches!(&refused.cause, SpanCause::NumbersUsedUp));
    assert_eq!(rt; refused.span.span_context().span_id(), SpanId::from(6));
    assert_eq!(rt; spans.len(), 1);
    assert_eq!(rt; id_at(&spans, LAST_NUMBER), SpanId::from(5));
    Ok(())
}

#[test]
fn nothing_is_lent_under_an_absent_number(rt: HostRuntime) -> Result<(), Fail> {
    let mut spans = Spans::new(rt.alloc());
    assert_eq!(rt; inserted(&rt, &mut spans, span(rt.alloc(), 5)), 0);
    assert!(rt; spans.get_mut(1).is_none());
    assert!(rt; spans.get_mut(LAST_NUMBER).is_none());
    match spans.get_mut(0) {
        Some(span) => span.end(9),
        None => {}
    }
    assert_eq!(rt; spans.get(0).and_then(|span| span.ended()), Some(9));
    Ok(())
}

#[test]
fn of_a_thousand_spans_every_second_is_taken(rt: HostRuntime) -> Result<(), Fail> {
    let mut spans = Spans::new(rt.alloc());
    for id in 0..1000 {
        assert_eq!(rt; inserted(&rt, &mut spans, span(rt.alloc(), id + 1)), id);
    }
    for half in 0..500 {
        let taken = spans.take(2 * half);
        assert!(rt; taken.is_some());
    }
    assert_eq!(rt; spans.len(), 500);
    for half in 0..500 {
        assert_eq!(rt; id_at(&spans, 2 * half), SpanId::INVALID);
        assert_eq!(rt; id_at(&spans, 2 * half + 1), SpanId::from(2 * half + 2));
    }
    assert_eq!(rt; spans.next_number(), 1000);
    Ok(())
}

/// The orders in which the spans of a table are taken.
#[derive(Clone, Copy, Debug)]
enum Order {
    OldestFirst,
    NewestFirst,
    Mixed,
}

const ORDERS: &[Order] = &[Order::OldestFirst, Order::NewestFirst, Order::Mixed];

/// The number that is taken as the one with this index, of a thousand. 387 has no common factor
/// with 1000, so the mixed order has each number once.
fn taken_as(order: Order, index: u64) -> u64 {
    match order {
        Order::OldestFirst => index,
        Order::NewestFirst => 999 - index,
        Order::Mixed => index * 387 % 1000,
    }
}

#[test]
fn a_thousand_spans_are_taken_in_any_order(rt: HostRuntime) -> Result<(), Fail> {
    for order in ORDERS {
        let mut spans = Spans::new(rt.alloc());
        for id in 0..1000 {
            assert_eq!(rt; inserted(&rt, &mut spans, span(rt.alloc(), id + 1)), id);
        }
        for index in 0..1000 {
            let number = taken_as(*order, index);
            let next = taken_as(*order, (index + 1) % 1000);
            let last = taken_as(*order, 999);
            assert_eq!(rt;
                id_at(&spans, last),
                SpanId::from(last + 1),
                "{order:?} {index}"
            );
            let Some(taken) = spans.take(number) else {
                panic!(&rt; "{order:?}: no span {number}")
            };
            assert_eq!(rt; taken.span_context().span_id(), SpanId::from(number + 1));
            assert_eq!(rt; spans.len(), (999 - index) as usize, "{order:?} {index}");
            assert_eq!(rt; id_at(&spans, number), SpanId::INVALID, "{order:?} {index}");
            assert!(rt; spans.take(number).is_none());
            let wanted = if index == 999 {
                SpanId::INVALID
            } else {
                SpanId::from(next + 1)
            };
            assert_eq!(rt; id_at(&spans, next), wanted, "{order:?} {index}");
        }
        assert!(rt; spans.is_empty());
        assert_eq!(rt; inserted(&rt, &mut spans, span(rt.alloc(), 5)), 1000);
        assert_eq!(rt; id_at(&spans, 1000), SpanId::from(5));
    }
    Ok(())
}

/// A discarded span is dropped at once, wherever it is in the table.
#[test]
fn a_thousand_spans_are_discarded_in_any_order(rt: HostRuntime) -> Result<(), Fail> {
    for order in ORDERS {
        let shared = Rc::new(rt.alloc(), 7)?;
        let mut spans = Spans::new(rt.alloc());
        for _ in 0..1000 {
            let Ok(_) = spans.insert(Rc::clone(&shared)?) else {
                panic!(&rt; "{order:?}: refused")
            };
        }
        for index in 0..1000 {
            let number = taken_as(*order, index);
            assert!(rt; spans.discard(number), "{order:?} {index}");
            assert!(rt; !spans.discard(number), "{order:?} {index}");
            assert!(rt; spans.get(number).is_none(), "{order:?} {index}");
            assert_eq!(rt; spans.len(), (999 - index) as usize, "{order:?} {index}");
            assert_eq!(rt;
                Rc::strong_count(&shared),
                spans.len() + 1,
                "{order:?} {index}"
            );
        }
        assert!(rt; !spans.discard(LAST_NUMBER));
        assert_eq!(rt; spans.next_number(), 1000);
    }
    Ok(())
}

#[test]
fn a_long_span_stays_under_many_short_ones(rt: HostRuntime) -> Result<(), Fail> {
    let mut spans = Spans::new(rt.alloc());
    assert_eq!(rt; inserted(&rt, &mut spans, span(rt.alloc(), 7)), 0);
    for number in 1..1000 {
        assert_eq!(rt;
            inserted(&rt, &mut spans, span(rt.alloc(), number + 1)),
            number
        );
        assert_eq!(rt; spans.len(), 2);
        assert_eq!(rt; id_at(&spans, 0), SpanId::from(7));
        assert_eq!(rt; id_at(&spans, number), SpanId::from(number + 1));
        assert_eq!(rt;
            id_at(&spans, number - 1),
            SpanId::from(if number == 1 { 7 } else { 0 })
        );
        assert!(rt; spans.take(number).is_some());
        assert_eq!(rt; spans.len(), 1);
    }
    match spans.get_mut(0) {
        Some(span) => span.end(9),
        None => {}
    }
    assert_eq!(rt; spans.take(0).and_then(|span| span.ended()), Some(9));
    assert!(rt; spans.is_empty());
    Ok(())
}

/// A table with a few spans, each taken some inserts later, and one that stays.
#[test]
fn spans_overlap_and_one_stays(rt: HostRuntime) -> Result<(), Fail> {
    let mut spans = Spans::new(rt.alloc());
    for number in 0..1000 {
        assert_eq!(rt;
            inserted(&rt, &mut spans, span(rt.alloc(), number + 1)),
            number
        );
        if number > 5 {
            assert!(rt; spans.take(number - 5).is_some(), "{number}");
        }
        assert_eq!(rt;
            spans.len(),
            if number > 5 { 6 } else { number as usize + 1 }
        );
        assert_eq!(rt; id_at(&spans, 0), SpanId::from(1));
        assert_eq!(rt; id_at(&spans, number), SpanId::from(number + 1));
    }
    for number in 995..1000 {
        assert_eq!(rt; id_at(&spans, number), SpanId::from(number + 1));
    }
    Ok(())
}

/// The calls that insert a span into a table.
#[derive(Clone, Copy, Debug)]
enum Numbered {
    Insert,
    WithSpan,
    CurrentWithSpan,
    Mark,
}

const NUMBERED: &[Numbered] = &[
    Numbered::Insert,
    Numbered::WithSpan,
    Numbered::CurrentWithSpan,
    Numbered::Mark,
];

/// Whether the numbers are used up, and the span id of the returned span.
fn back(refused: &SpanRefused<RecordingSpan>) -> Option<SpanId> {
    if matches!(&refused.cause, SpanCause::NumbersUsedUp) {
        Some(refused.span.span_context().span_id())
    } else {
        None
    }
}

/// The number that the span gets, or the returned error.
fn number_of(
    alloc: Global,
    way: Numbered,
    stack: &mut ContextStack,
    spans: &mut Spans<RecordingSpan>,
) -> Result<u64, Option<SpanId>> {
    match way {
        Numbered::Insert => spans
            .insert(span(alloc, 1))
            .map_err(|refused| back(&refused)),
        Numbered::WithSpan => match Context::new().with_span(alloc, spans, span(alloc, 1)) {
            Ok(context) => context.span_number().ok_or(None),
            Err(refused) => Err(back(&refused)),
        },
        Numbered::CurrentWithSpan => match stack.current_with_span(spans, span(alloc, 1)) {
            Ok(context) => context.span_number().ok_or(None),
            Err(refused) => Err(back(&refused)),
        },
        Numbered::Mark => match mark_span_as_active(stack, spans, span(alloc, 1)) {
            Ok((guard, number)) => {
                drop(stack.detach(guard));
                Ok(number)
            }
            Err(refused) => Err(back(&refused)),
        },
    }
}

#[test]
fn a_span_gets_the_last_number(rt: HostRuntime) -> Result<(), Fail> {
    for way in NUMBERED {
        for (first, is_given, next) in NUMBERS {
            let mut stack = filled(rt.alloc(), 1)?;
            let mut spans = Spans::starting_at(rt.alloc(), *first);
            let wanted = if *is_given {
                Ok(*first)
            } else {
                Err(Some(span_context(1).span_id()))
            };
            let given = number_of(rt.alloc(), *way, &mut stack, &mut spans);
            assert!(rt; given == wanted, "{way:?} at {first}");
            assert_eq!(rt; spans.next_number(), *next, "{way:?} at {first}");
            assert_eq!(rt; spans.len(), if *is_given { 1 } else { 0 });
            assert_eq!(rt; spans.get(*first).is_some(), *is_given);
            assert_eq!(rt; stack.newest_position(), 1);
            assert_eq!(rt; name_of(stack.current()), "below");
        }
    }
    Ok(())
}

/// A table holds spans with the last three numbers, and refuses the next one, even after one was
/// taken.
#[test]
fn a_number_is_not_given_again_where_all_are_used_up(rt: HostRuntime) -> Result<(), Fail> {
    let mut spans = Spans::starting_at(rt.alloc(), LAST_NUMBER - 2);
    for number in [LAST_NUMBER - 2, LAST_NUMBER - 1, LAST_NUMBER] {
        assert!(rt;
            spans
                .insert(span(rt.alloc(), 1))
                .is_ok_and(|given| given == number)
        );
    }
    assert!(rt; spans.insert(span(rt.alloc(), 1)).is_err());
    assert!(rt; spans.take(LAST_NUMBER - 1).is_some());
    assert!(rt; spans.insert(span(rt.alloc(), 1)).is_err());
    assert_eq!(rt; spans.len(), 2);
    assert_eq!(rt; spans.next_number(), u64::MAX);
    Ok(())
}

/// A type with neither `Debug` nor `Display`.
#[derive(Drop)]
struct Silent;

#[test]
fn a_refusal_prints_its_cause_and_no_span(rt: HostRuntime) -> Result<(), Fail> {
    let alloc = rt.alloc();
    let rows = [
        (
            SpanCause::NumbersUsedUp,
            "NumbersUsedUp",
            "no span number left",
        ),
        (
            SpanCause::Memory(AllocError),
            "Memory(AllocError)",
            "no memory",
        ),
    ];
    for (cause, debug, text) in rows {
        assert_eq!(rt; cause.to_string(alloc)?.as_str(), text);
        assert_eq!(rt; format!(in alloc; "{cause:?}")?.as_str(), debug);
        let refused = SpanRefused {
            span: Silent,
            cause,
        };
        assert_eq!(rt; refused.to_string(alloc)?.as_str(), text);
        let wanted = format!(in alloc; "SpanRefused {{ cause: {debug}, .. }}")?;
        assert_eq!(rt; format!(in alloc; "{refused:?}")?, wanted);
    }
    Ok(())
}
