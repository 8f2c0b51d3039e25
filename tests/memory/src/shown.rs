//! Printing values of the libraries without allocating.
use crate::lines::Lines;
use otel_base::{AnyValue, InstrumentationScope, Key, KeyValue};
use otel_context::Context;
use otel_context::baggage::Baggage;
use otel_ids::{SpanContext, TraceState};
use std::collections::BTreeMap;
use std::fmt::{self, Display, Formatter};

/// A value of the libraries whose type has no `Display`, or one that allocates.
pub trait Shown {
    fn show<W: fmt::Write>(&self, f: &mut Formatter<W>) -> fmt::Result;
}

/// Prints such a value.
#[derive(Drop)]
pub struct Show<'a, T>(pub &'a T);

impl<T: Shown> Display for Show<'_, T> {
    fn fmt<W: fmt::Write>(&self, f: &mut Formatter<W>) -> fmt::Result {
        self.0.show(f)
    }
}

/// Prints the answer of a call that allocates, or its error.
pub fn answer_shown<R: Print, T: Shown + Drop, E: Display + Drop>(
    lines: &Lines<'_, R>,
    answer: Result<T, E>,
) {
    match answer {
        Ok(answer) => lines.answer(&Show(&answer)),
        Err(error) => lines.answer(&error),
    }
}

/// Prints the answer of the named call, which doesn't allocate, or the error that it never returns.
pub fn free_shown<R: Print, T: Shown + Drop, E: Display + Drop>(
    lines: &Lines<'_, R>,
    call: &str,
    answer: Result<T, E>,
) {
    match answer {
        Ok(answer) => lines.free(call, &Show(&answer)),
        Err(error) => lines.free(call, &error),
    }
}

/// The pairs.
impl Shown for TraceState {
    fn show<W: fmt::Write>(&self, f: &mut Formatter<W>) -> fmt::Result {
        f.write_str("[")?;
        for (key, value) in self.iter() {
            write!(f, "{key}={value};")?;
        }
        f.write_str("]")
    }
}

/// Every part.
impl Shown for SpanContext {
    fn show<W: fmt::Write>(&self, f: &mut Formatter<W>) -> fmt::Result {
        let flags = self.trace_flags().to_u8();
        write!(f, "{} {} flags {flags}", self.trace_id(), self.span_id())?;
        f.write_str(if self.is_remote() {
            " remote "
        } else {
            " local "
        })?;
        self.trace_state().show(f)
    }
}

/// The members, each with its metadata.
impl Shown for Baggage {
    fn show<W: fmt::Write>(&self, f: &mut Formatter<W>) -> fmt::Result {
        f.write_str("[")?;
        for (key, (value, metadata)) in self.iter() {
            write!(f, "{key}={value} ({});", metadata.as_str())?;
        }
        f.write_str("]")
    }
}

/// The value of an attribute.
impl Shown for KeyValue {
    fn show<W: fmt::Write>(&self, f: &mut Formatter<W>) -> fmt::Result {
        self.value.fmt(f)
    }
}

/// A value tree, including the items of its list or map.
impl Shown for AnyValue {
    fn show<W: fmt::Write>(&self, f: &mut Formatter<W>) -> fmt::Result {
        match self {
            AnyValue::ListAny(values) => write_list(f, values.as_slice()),
            AnyValue::Map(entries) => write_map(f, entries),
            leaf => write_leaf(f, leaf),
        }
    }
}

fn write_list<W: fmt::Write>(f: &mut Formatter<W>, values: &[AnyValue]) -> fmt::Result {
    f.write_str("[")?;
    for value in values {
        write_leaf(f, value)?;
        f.write_str(";")?;
    }
    f.write_str("]")
}

fn write_map<W: fmt::Write>(
    f: &mut Formatter<W>,
    entries: &BTreeMap<Key, AnyValue>,
) -> fmt::Result {
    f.write_str("{")?;
    for (key, value) in entries.iter() {
        write!(f, "{key}=")?;
        write_leaf(f, value)?;
        f.write_str(";")?;
    }
    f.write_str("}")
}

/// A value tree, and the length of a list or map.
fn write_leaf<W: fmt::Write>(f: &mut Formatter<W>, value: &AnyValue) -> fmt::Result {
    match value {
        AnyValue::Int(number) => number.fmt(f),
        AnyValue::String(text) => text.fmt(f),
        AnyValue::Boolean(truth) => truth.fmt(f),
        AnyValue::Bytes(bytes) => write!(f, "{} bytes", bytes.len()),
        AnyValue::ListAny(values) => write!(f, "list of {}", values.len()),
        AnyValue::Map(entries) => write!(f, "map of {}", entries.len()),
    }
}

/// The name, the version and the attributes of a scope.
impl Shown for InstrumentationScope {
    fn show<W: fmt::Write>(&self, f: &mut Formatter<W>) -> fmt::Result {
        let version = self.version().unwrap_or("no version");
        write!(f, "{} {version} [", self.name())?;
        for attribute in self.attributes() {
            write!(f, "{}={};", attribute.key, attribute.value)?;
        }
        f.write_str("]")
    }
}

/// The entries `a` and `b` of a context, its baggage, the ids of its span context, and whether it
/// is suppressed.
impl Shown for Context {
    fn show<W: fmt::Write>(&self, f: &mut Formatter<W>) -> fmt::Result {
        write_held(f, "", "a", self)?;
        write_held(f, " ", "b", self)?;
        write_baggage(f, self)?;
        write_span(f, self)?;
        f.write_str(if self.is_telemetry_suppressed() {
            " suppressed"
        } else {
            ""
        })
    }
}

/// The number under the name, if there is one, after the text.
fn write_held<W: fmt::Write>(
    f: &mut Formatter<W>,
    before: &str,
    name: &str,
    context: &Context,
) -> fmt::Result {
    match context.get(name) {
        Some(AnyValue::Int(number)) => write!(f, "{before}{name}={number}"),
        _ => Ok(()),
    }
}

fn write_baggage<W: fmt::Write>(f: &mut Formatter<W>, context: &Context) -> fmt::Result {
    match context.baggage() {
        Some(baggage) => write!(f, " baggage {baggage}"),
        None => Ok(()),
    }
}

fn write_span<W: fmt::Write>(f: &mut Formatter<W>, context: &Context) -> fmt::Result {
    let span = context.span_context();
    write!(f, " ids {} {}", span.trace_id(), span.span_id())
}
