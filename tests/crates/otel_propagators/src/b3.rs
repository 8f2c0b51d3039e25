//! The propagator of B3: the contexts that it extracts from both forms of its headers.
mod deferred;
mod injection;

use opentelemetry::logs::AnyValue;
use opentelemetry::propagation::{PropagationError, TextMapPropagator};
use opentelemetry::trace::{SpanContext, SpanId, TraceFlags, TraceId, TraceState};
use opentelemetry::{Context, Key};
use otel_propagators::B3Propagator;
use std::alloc::{AllocError, Global};
use std::process::Abort;
use std::test::Fail;
use test_support::map_of;

/// A trace id, a span id, and the flags.
pub type Ids = (u128, u64, u8);

/// The sampling state that is extracted.
#[derive(Clone, Copy, PartialEq)]
pub enum State {
    Denied,
    Accepted,
    Deferred,
    Debug,
}

impl State {
    fn flags(self) -> u8 {
        match self {
            State::Denied | State::Deferred => 0,
            State::Accepted | State::Debug => 1,
        }
    }
}

/// The extracted ids and state.
type Read = Option<(u128, u64, State)>;

/// Headers: names and values.
pub type Headers = &'static [(&'static str, &'static str)];

/// The ids of [`TRACE`] and [`SPAN`].
pub const IDS: (u128, u64) = (0x80f198ee56343ba864fe8b2a57d3eff7, 0xe457b5a2e4d86bd1);

pub const TRACE: &str = "80f198ee56343ba864fe8b2a57d3eff7";

pub const SPAN: &str = "e457b5a2e4d86bd1";

const SAMPLED: Read = Some((IDS.0, IDS.1, State::Accepted));

const NOT_SAMPLED: Read = Some((IDS.0, IDS.1, State::Denied));

const DEFERRED: Read = Some((IDS.0, IDS.1, State::Deferred));

const DEBUGGED: Read = Some((IDS.0, IDS.1, State::Debug));

pub fn span_context(ids: Ids, is_remote: bool) -> SpanContext {
    SpanContext::new(
        TraceId::from(ids.0),
        SpanId::from(ids.1),
        TraceFlags::new(ids.2),
        is_remote,
        TraceState::NONE,
    )
}

/// A context with an entry and a span context with a trace state, whose ids are 7 and 7.
pub fn given(alloc: Global) -> Result<Context, AllocError> {
    let Ok(state) = TraceState::from_str(alloc, "old=1") else {
        return Err(AllocError);
    };
    let (trace_id, span_id) = (TraceId::from(7u128), SpanId::from(7u64));
    let old = SpanContext::new(trace_id, span_id, TraceFlags::SAMPLED, false, state);
    Context::new()
        .with_value(alloc, Key::from("name"), AnyValue::from("given"))?
        .with_remote_span_context(alloc, old)
}

pub fn with_debug(alloc: Global, context: &Context, debug: bool) -> Result<Context, AllocError> {
    context.with_value(alloc, Key::from("b3-debug"), AnyValue::Boolean(debug))
}

fn is_debug(context: &Context) -> bool {
    matches!(context.get("b3-debug"), Some(AnyValue::Boolean(true)))
}

/// The span that the context keeps as deferred.
pub fn kept(context: &Context) -> Option<&str> {
    match context.get("b3-deferred") {
        Some(AnyValue::String(text)) => Some(text.as_str()),
        _ => None,
    }
}

pub fn ample<T>(outcome: Result<T, PropagationError>) -> Result<T, AllocError> {
    match outcome {
        Ok(value) => Ok(value),
        Err(_) => Err(AllocError),
    }
}

/// Both propagators.
pub fn both(alloc: Global) -> Result<[B3Propagator; 2], AllocError> {
    Ok([B3Propagator::single(alloc)?, B3Propagator::multi(alloc)?])
}

/// Asserts that both forms extract from the headers the ids and the state or, if there are none,
/// the given context.
pub fn assert_extracted(
    rt: &impl Abort,
    alloc: Global,
    headers: &[(&str, &str)],
    expected: Read,
) -> Result<(), Fail> {
    let given = given(alloc)?;
    let carrier = map_of(alloc, headers)?;
    for propagator in &both(alloc)? {
        let context = ample(propagator.extract_with_context(alloc, &given, &carrier))?;
        let name = context.get("name");
        assert!(rt; matches!(name, Some(AnyValue::String(name)) if name.as_str() == "given"));
        match expected {
            Some((trace_id, span_id, state)) => {
                let remote = span_context((trace_id, span_id, state.flags()), true);
                assert!(rt; *context.span_context() == remote, "of {headers:?}");
                let debug = state == State::Debug;
                assert!(rt;
                    context.get("b3-debug").is_some() == debug,
                    "of {headers:?}"
                );
                assert!(rt; is_debug(&context) == debug, "of {headers:?}");
                let left = state == State::Deferred;
                assert!(rt;
                    context.get("b3-deferred").is_some() == left,
                    "of {headers:?}"
                );
                assert!(rt; kept(&context).is_some() == left, "of {headers:?}");
            }
            None => {
                assert!(rt;
                    *context.span_context() == *given.span_context(),
                    "of {headers:?}"
                );
                assert!(rt; context.get("b3-debug").is_none(), "of {headers:?}");
                assert!(rt; context.get("b3-deferred").is_none(), "of {headers:?}");
            }
        }
    }
    Ok(())
}

/// Values of `b3`, with what is extracted.
const SINGLE: &[(&str, Read)] = &[
    (
        "80f198ee56343ba864fe8b2a57d3eff7-e457b5a2e4d86bd1-1-05e3ac9a4f6e3b90",
        SAMPLED,
    ),
    (
        "80f198ee56343ba864fe8b2a57d3eff7-e457b5a2e4d86bd1-d-05e3ac9a4f6e3b90",
        DEBUGGED,
    ),
    (
        "80f198ee56343ba864fe8b2a57d3eff7-e457b5a2e4d86bd1-0-05e3ac9a4f6e3b90",
        NOT_SAMPLED,
    ),
    (
        "80f198ee56343ba864fe8b2a57d3eff7-e457b5a2e4d86bd1-1",
        SAMPLED,
    ),
    (
        "80f198ee56343ba864fe8b2a57d3eff7-e457b5a2e4d86bd1-d",
        DEBUGGED,
    ),
    (
        "80f198ee56343ba864fe8b2a57d3eff7-e457b5a2e4d86bd1-0",
        NOT_SAMPLED,
    ),
    (
        "80f198ee56343ba864fe8b2a57d3eff7-e457b5a2e4d86bd1",
        DEFERRED,
    ),
    // Digits of either case, and blanks at the ends.
    (
        "80F198EE56343BA864FE8B2A57D3EFF7-E457B5A2E4D86BD1-1",
        SAMPLED,
    ),
    (
        " \t80f198ee56343ba864fe8b2a57d3eff7-e457b5a2e4d86bd1-1 ",
        SAMPLED,
    ),
    // A short trace id.
    (
        "64fe8b2a57d3eff7-e457b5a2e4d86bd1-1",
        Some((0x64fe8b2a57d3eff7, 0xe457b5a2e4d86bd1, State::Accepted)),
    ),
    // A parent of 0 isn't used.
    (
        "80f198ee56343ba864fe8b2a57d3eff7-e457b5a2e4d86bd1-1-0000000000000000",
        SAMPLED,
    ),
    // No span.
    ("0", None),
    ("1", None),
    ("d", None),
    ("", None),
    ("-", None),
    ("80f198ee56343ba864fe8b2a57d3eff7", None),
    ("00000000000000000000000000000000-e457b5a2e4d86bd1-1", None),
    ("0000000000000000-e457b5a2e4d86bd1-1", None),
    ("80f198ee56343ba864fe8b2a57d3eff7-0000000000000000-1", None),
    // Ids of other lengths, and other characters.
    ("80f198-e457-1", None),
    ("80f198ee56343ba864fe8b2a57d3eff-e457b5a2e4d86bd1-1", None),
    ("80f198ee56343ba864fe8b2a57d3eff70-e457b5a2e4d86bd1-1", None),
    ("80f198ee56343ba864fe8b2a57d3eff7-e457b5a2e4d86bd-1", None),
    (
        "80f198ee56343ba864fe8b2a57d3eff7-80f198ee56343ba864fe8b2a57d3eff7-1",
        None,
    ),
    ("+0f198ee56343ba864fe8b2a57d3eff7-e457b5a2e4d86bd1-1", None),
    ("80f198ee56343ba864fe8b2a57d3eff7-+457b5a2e4d86bd1-1", None),
    ("80f198ee56343ba864fe8b2a57d3efg7-e457b5a2e4d86bd1-1", None),
    // Other states.
    ("80f198ee56343ba864fe8b2a57d3eff7-e457b5a2e4d86bd1-2", None),
    ("80f198ee56343ba864fe8b2a57d3eff7-e457b5a2e4d86bd1-D", None),
    (
        "80f198ee56343ba864fe8b2a57d3eff7-e457b5a2e4d86bd1-true",
        None,
    ),
    ("80f198ee56343ba864fe8b2a57d3eff7-e457b5a2e4d86bd1-", None),
    (
        "80f198ee56343ba864fe8b2a57d3eff7-e457b5a2e4d86bd1-1 ",
        SAMPLED,
    ),
    // Other parents, and a fifth part.
    ("80f198ee56343ba864fe8b2a57d3eff7-e457b5a2e4d86bd1-1-", None),
    (
        "80f198ee56343ba864fe8b2a57d3eff7-e457b5a2e4d86bd1-1-05e3ac9a",
        None,
    ),
    (
        "80f198ee56343ba864fe8b2a57d3eff7-e457b5a2e4d86bd1-1-05e3ac9a4f6e3b90-",
        None,
    ),
    (
        "80f198ee56343ba864fe8b2a57d3eff7-e457b5a2e4d86bd1-1-05e3ac9a4f6e3b90-1",
        None,
    ),
];

#[test]
fn the_single_header_is_read(rt: HostRuntime) -> Result<(), Fail> {
    for (value, expected) in SINGLE {
        assert_extracted(&rt, rt.alloc(), &[("b3", *value)], *expected)?;
    }
    assert_extracted(&rt, rt.alloc(), &[], None)
}

/// Multiple headers, with what is extracted.
const MULTI: &[(Headers, Read)] = &[
    (&[("x-b3-traceid", TRACE), ("x-b3-spanid", SPAN)], DEFERRED),
    // The flags say nothing but debug.
    (
        &[
            ("x-b3-traceid", TRACE),
            ("x-b3-spanid", SPAN),
            ("x-b3-flags", "0"),
        ],
        DEFERRED,
    ),
    (
        &[
            ("x-b3-traceid", TRACE),
            ("x-b3-spanid", SPAN),
            ("x-b3-sampled", "1"),
        ],
        SAMPLED,
    ),
    (
        &[
            ("x-b3-traceid", TRACE),
            ("x-b3-spanid", SPAN),
            ("x-b3-sampled", "true"),
        ],
        SAMPLED,
    ),
    (
        &[
            ("x-b3-traceid", TRACE),
            ("x-b3-spanid", SPAN),
            ("x-b3-sampled", "0"),
        ],
        NOT_SAMPLED,
    ),
    (
        &[
            ("x-b3-traceid", TRACE),
            ("x-b3-spanid", SPAN),
            ("x-b3-sampled", "false"),
        ],
        NOT_SAMPLED,
    ),
    (
        &[
            ("x-b3-traceid", TRACE),
            ("x-b3-spanid", SPAN),
            ("x-b3-sampled", "2"),
        ],
        NOT_SAMPLED,
    ),
    (
        &[
            ("x-b3-traceid", TRACE),
            ("x-b3-spanid", SPAN),
            ("x-b3-sampled", "d"),
        ],
        NOT_SAMPLED,
    ),
    (
        &[
            ("x-b3-traceid", TRACE),
            ("x-b3-spanid", SPAN),
            ("x-b3-sampled", "0"),
            ("x-b3-flags", "1"),
        ],
        DEBUGGED,
    ),
    (
        &[
            ("x-b3-traceid", TRACE),
            ("x-b3-spanid", SPAN),
            ("x-b3-sampled", "1"),
            ("x-b3-flags", "0"),
        ],
        SAMPLED,
    ),
    // The id of a parent isn't read, so it may have any form.
    (
        &[
            ("x-b3-traceid", TRACE),
            ("x-b3-spanid", SPAN),
            ("x-b3-parentspanid", "x"),
            ("x-b3-sampled", "1"),
        ],
        SAMPLED,
    ),
    // Digits of either case, and a short trace id.
    (
        &[
            ("x-b3-traceid", "64FE8B2A57D3EFF7"),
            ("x-b3-spanid", "E457B5A2E4D86BD1"),
            ("x-b3-sampled", "1"),
        ],
        Some((0x64fe8b2a57d3eff7, 0xe457b5a2e4d86bd1, State::Accepted)),
    ),
    // An id is missing, 0, or has another form.
    (&[("x-b3-traceid", TRACE), ("x-b3-sampled", "1")], None),
    (&[("x-b3-spanid", SPAN), ("x-b3-flags", "1")], None),
    (&[("x-b3-sampled", "1")], None),
    (
        &[
            ("x-b3-traceid", "00000000000000000000000000000000"),
            ("x-b3-spanid", SPAN),
            ("x-b3-flags", "1"),
        ],
        None,
    ),
    (
        &[
            ("x-b3-traceid", TRACE),
            ("x-b3-spanid", "0000000000000000"),
            ("x-b3-flags", "1"),
        ],
        None,
    ),
    (&[("x-b3-traceid", "1"), ("x-b3-spanid", SPAN)], None),
    (&[("x-b3-traceid", TRACE), ("x-b3-spanid", TRACE)], None),
    (&[("x-b3-traceid", TRACE), ("x-b3-spanid", "")], None),
];

#[test]
fn the_multiple_headers_are_read(rt: HostRuntime) -> Result<(), Fail> {
    for (headers, expected) in MULTI {
        assert_extracted(&rt, rt.alloc(), *headers, *expected)?;
    }
    Ok(())
}

/// Values of `b3` beside multiple headers with ids 1 and 1, accepted, with what is extracted.
const BESIDE: &[(&str, Read)] = &[
    (
        "80f198ee56343ba864fe8b2a57d3eff7-e457b5a2e4d86bd1",
        DEFERRED,
    ),
    (
        "80f198ee56343ba864fe8b2a57d3eff7-e457b5a2e4d86bd1-2",
        Some((1, 1, State::Accepted)),
    ),
    ("", Some((1, 1, State::Accepted))),
    ("2", Some((1, 1, State::Accepted))),
    // These have the form of a `b3`, which names no span.
    ("0", None),
    ("1", None),
    ("d", None),
    ("80f198ee56343ba864fe8b2a57d3eff7-0000000000000000-1", None),
];

#[test]
fn a_single_header_of_the_form_decides_alone(rt: HostRuntime) -> Result<(), Fail> {
    for (value, expected) in BESIDE {
        let headers = [
            ("b3", *value),
            ("x-b3-traceid", "00000000000000000000000000000001"),
            ("x-b3-spanid", "0000000000000001"),
            ("x-b3-sampled", "1"),
        ];
        assert_extracted(&rt, rt.alloc(), &headers, *expected)?;
    }
    Ok(())
}

/// The debug flag of the given context doesn't outlast an extracted span, but does outlast headers
/// without one.
#[test]
fn an_extracted_span_has_its_own_debug_flag(rt: HostRuntime) -> Result<(), Fail> {
    let alloc = rt.alloc();
    let debugged = with_debug(alloc, &given(alloc)?, true)?;
    let propagator = B3Propagator::single(alloc)?;
    for (value, expected) in SINGLE {
        let carrier = map_of(alloc, &[("b3", *value)])?;
        let context = ample(propagator.extract_with_context(alloc, &debugged, &carrier))?;
        match expected {
            Some((_, _, state)) => {
                assert!(rt;
                    is_debug(&context) == (*state == State::Debug),
                    "of {value}"
                );
            }
            None => assert!(rt; is_debug(&context), "of {value}"),
        }
    }
    Ok(())
}
