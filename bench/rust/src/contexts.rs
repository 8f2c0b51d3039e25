//! Operations on contexts.
use crate::task::Task;
use opentelemetry::trace::{SpanContext, TraceContextExt, TraceState};
use opentelemetry::{Context, SpanId, TraceFlags, TraceId};
use std::hint::black_box;
use std::str::FromStr;

/// The value with the name of a context.
pub struct Name(pub String);

/// Further values, each of its own type: a context has one value per type.
struct Extra<const NUMBER: usize>(u64);

struct Number(u64);

pub fn play(task: &Task<'_>) -> Option<u64> {
    match task.name {
        "context_clone" => copy(task, &named()),
        "context_clone_remote" => copy(task, &remote()),
        "context_clone_current" => {
            let _guard = named().attach();
            task.repeat(|| look_at(&current_of()))
        }
        "context_get_oldest" => {
            let context = with_entries(task.size);
            task.repeat(|| look_up_name(black_box(&context)))
        }
        "context_get_newest" => match task.size {
            3 => get::<2>(task),
            4 => get::<3>(task),
            8 => get::<7>(task),
            16 => get::<15>(task),
            64 => get::<63>(task),
            _ => None,
        },
        "context_get_absent" => {
            let context = with_entries(task.size);
            task.repeat(|| look_up_number(black_box(&context)))
        }
        "context_with_value" => {
            let context = with_entries(task.size);
            task.repeat(|| look_at(&with_number(black_box(&context))))
        }
        "context_with_value_clone_get" => {
            let context = with_entries(task.size);
            task.repeat(|| {
                let more = with_number(black_box(&context));
                look_up_number(&clone_of(&more))
            })
        }
        _ => None,
    }
}

/// A context with a name.
pub fn named() -> Context {
    Context::new().with_value(Name("request-name".to_string()))
}

/// The same context with a remote span context, whose trace state has two pairs.
pub fn remote() -> Context {
    let state = TraceState::from_str("vendor=opaque-value,other@sys=1234").unwrap();
    named().with_remote_span_context(SpanContext::new(
        TraceId::from(1),
        SpanId::from(1),
        TraceFlags::SAMPLED,
        true,
        state,
    ))
}

/// Looks up the value of type `Extra<NUMBER>`, the last that was set.
fn get<const NUMBER: usize>(task: &Task<'_>) -> Option<u64> {
    let context = with_entries(task.size);
    task.repeat(|| look_up_extra::<NUMBER>(black_box(&context)))
}

#[inline(never)]
fn clone_of(context: &Context) -> Context {
    context.clone()
}

#[inline(never)]
fn current_of() -> Context {
    Context::current()
}

#[inline(never)]
fn look_up_name(context: &Context) -> usize {
    let found = context.get::<Name>();
    black_box(found.map_or(0, |name| name.0.len()))
}

#[inline(never)]
fn look_up_number(context: &Context) -> usize {
    let found = context.get::<Number>();
    black_box(found.map_or(0, |number| number.0 as usize))
}

#[inline(never)]
fn look_up_extra<const NUMBER: usize>(context: &Context) -> usize {
    let found = context.get::<Extra<NUMBER>>();
    black_box(found.map_or(0, |extra| extra.0 as usize))
}

#[inline(never)]
fn with_number(context: &Context) -> Context {
    context.with_value(Number(1))
}

/// Uses a context before it is dropped.
#[inline(never)]
fn look_at(context: &Context) -> usize {
    usize::from(black_box(context).is_telemetry_suppressed())
}

fn copy(task: &Task<'_>, context: &Context) -> Option<u64> {
    task.repeat(|| look_at(&clone_of(black_box(context))))
}

/// The context with the value of type `Extra<NUMBER>`, if `size` has room for it.
fn extra<const NUMBER: usize>(context: Context, size: usize) -> Context {
    if NUMBER < size {
        context.with_value(Extra::<NUMBER>(1))
    } else {
        context
    }
}

/// The context with the values of the types of these numbers, if `size` has room for them.
macro_rules! with_extras {
    ($context:ident, $size:ident: $($number:literal)*) => {{
        $($context = extra::<$number>($context, $size);)*
    }};
}

/// A context with `size` values, at least its name, and at most 64.
pub fn with_entries(size: usize) -> Context {
    let mut context = named();
    with_extras!(context, size: 1 2 3 4 5 6 7 8 9 10 11 12 13 14 15 16 17 18 19 20 21 22 23 24 25 26 27 28 29 30 31);
    with_extras!(context, size: 32 33 34 35 36 37 38 39 40 41 42 43 44 45 46 47 48 49 50 51 52 53 54 55 56 57 58 59 60 61 62 63);
    context
}
