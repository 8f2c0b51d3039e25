//! A composite of two members, one for a span id and one for a baggage.
//!
//! No proof reads the members: the ghost members required by their trait say as little as possible.
use crate::members::{assert_fields, assert_held};
use opentelemetry::baggage::Baggage;
use opentelemetry::propagation::text_map_propagator::FieldIter;
use opentelemetry::propagation::{
    Extractor, Injector, PropagationError, TextMapCompositePropagator, TextMapPropagator,
};
use opentelemetry::trace::{SpanContext, TraceState};
use opentelemetry::{Context, Key, SpanId, StringValue, TraceFlags, TraceId};
use std::alloc::{AllocError, Global};
use std::collections::HashMap;
use std::test::Fail;
use test_support::map_of;

/// The parts of both members: the allocator of the texts, and the name of the field.
#[derive(Drop)]
struct Field {
    alloc: Global,
    name: [String; 1],
}

fn field(alloc: Global, name: &str) -> Result<Field, AllocError> {
    Ok(Field {
        alloc,
        name: [String::from_str(alloc, name)?],
    })
}

/// The local span context of trace 1 with this span id.
fn in_trace_1(span_id: SpanId) -> SpanContext {
    SpanContext::new(
        TraceId::from(1),
        span_id,
        TraceFlags::new(0),
        false,
        TraceState::NONE,
    )
}

/// Sets and reads the span id, in hexadecimal digits without leading zeros.
#[derive(Drop)]
struct SpanIdMember {
    field: Field,
}

impl TextMapPropagator for SpanIdMember {
    ghost use Rattle.std.specs.Prelude.{[], true};

    ghost pairs = { λ _ _. [] };

    ghost extracted = { λ _ context _. context };

    ghost field_names = { λ _. [] };

    ghost may_refuse = { λ _. true };

    fn inject_context(
        &self,
        context: &Context,
        injector: &mut dyn Injector,
    ) -> Result<(), PropagationError> {
        let id = context.span_context().span_id();
        injector.set("span-id", format!(in self.field.alloc; "{id:x}")?)
    }

    fn extract_with_context(
        &self,
        alloc: Global,
        context: &Context,
        extractor: &dyn Extractor,
    ) -> Result<Context, PropagationError> {
        let text = extractor.get(alloc, "span-id")?.unwrap_or("");
        match SpanId::from_hex(text) {
            Ok(id) => Ok(context.with_remote_span_context(alloc, in_trace_1(id))?),
            Err(_) => Err(PropagationError::Refused),
        }
    }

    fn fields(&self) -> FieldIter<'_> {
        FieldIter::new(&self.field.name)
    }
}

/// Sets and reads a baggage of at most one member, as its text.
#[derive(Drop)]
struct BaggageMember {
    field: Field,
}

/// The baggage with the one member of the text, `key=value`.
fn read(alloc: Global, text: &str) -> Result<Baggage, AllocError> {
    let mut baggage = Baggage::new(alloc);
    if let Some((key, value)) = text.split_once('=') {
        let key = Key::from(String::from_str(alloc, key)?);
        let value = StringValue::from(String::from_str(alloc, value)?);
        drop(baggage.insert(key, value)?);
    }
    Ok(baggage)
}

impl TextMapPropagator for BaggageMember {
    ghost use Rattle.std.specs.Prelude.{[], true};

    ghost pairs = { λ _ _. [] };

    ghost extracted = { λ _ context _. context };

    ghost field_names = { λ _. [] };

    ghost may_refuse = { λ _. true };

    fn inject_context(
        &self,
        context: &Context,
        injector: &mut dyn Injector,
    ) -> Result<(), PropagationError> {
        match context.baggage() {
            Some(baggage) => { injector.set("baggage", format!(in self.field.alloc; "{baggage}")?) }
            None => Ok(()),
        }
    }

    fn extract_with_context(
        &self,
        alloc: Global,
        context: &Context,
        extractor: &dyn Extractor,
    ) -> Result<Context, PropagationError> {
        let text = extractor.get(alloc, "baggage")?.unwrap_or("");
        Ok(context.with_baggage(alloc, read(alloc, text)?)?)
    }

    fn fields(&self) -> FieldIter<'_> {
        FieldIter::new(&self.field.name)
    }
}

fn composite(alloc: Global) -> Result<TextMapCompositePropagator, AllocError> {
    let mut members: Vec<Box<dyn TextMapPropagator>> = Vec::new(alloc);
    let span_id = SpanIdMember {
        field: field(alloc, "span-id")?,
    };
    members.push(Box::new(alloc, span_id)?)?;
    let baggage = BaggageMember {
        field: field(alloc, "baggage")?,
    };
    members.push(Box::new(alloc, baggage)?)?;
    TextMapCompositePropagator::new(alloc, members)
}

/// The texts set for span id 11 of trace 1 and the baggage with one pair.
const TEXTS: &[(&str, &str)] = &[("span-id", "b"), ("baggage", "baggagekey=value")];

#[test]
fn both_members_inject(rt: HostRuntime) -> Result<(), Fail> {
    let alloc = rt.alloc();
    let mut baggage = Baggage::new(alloc);
    drop(baggage.insert(Key::from("baggagekey"), StringValue::from("value"))?);
    let context = Context::new()
        .with_remote_span_context(alloc, in_trace_1(SpanId::from(11)))?
        .with_baggage(alloc, baggage)?;
    let mut texts: HashMap<String, String> = HashMap::new(alloc);
    let composite = composite(alloc)?;
    assert!(rt; composite.inject_context(&context, &mut texts).is_ok());
    assert_eq!(rt; texts.len(), 2);
    assert_held(&rt, &texts, TEXTS);
    assert_fields(&rt, &composite, &["span-id", "baggage"]);
    Ok(())
}

#[test]
fn both_members_extract(rt: HostRuntime) -> Result<(), Fail> {
    let alloc = rt.alloc();
    let texts = map_of(alloc, TEXTS)?;
    match composite(alloc)?.extract_with_context(alloc, &Context::new(), &texts) {
        Ok(given) => {
            assert!(rt; *given.span_context() == in_trace_1(SpanId::from(11)));
            match given.baggage() {
                Some(baggage) => {
                    let header = format!(in alloc; "{baggage}")?;
                    assert_eq!(rt; header.as_str(), "baggagekey=value");
                }
                None => assert!(rt; false),
            }
        }
        Err(_) => assert!(rt; false),
    }
    Ok(())
}
