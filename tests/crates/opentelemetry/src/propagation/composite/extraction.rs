//! Extraction by the members of a composite, each from the context that the previous one returned.
use crate::members::{EntryCopier, RefusingMember, entry, with_text};
use opentelemetry::context::{Context, ContextStack};
use opentelemetry::propagation::text_map_propagator::FieldIter;
use opentelemetry::propagation::{
    Extractor, Injector, PropagationError, TextMapCompositePropagator, TextMapPropagator,
};
use std::alloc::Global;
use std::test::Fail;
use test_support::map_of;

/// Extracts an entry: the carrier's text under a key, if there is one.
#[derive(Drop)]
struct TextReader {
    key: &'static str,
    entry: &'static str,
}

impl TextMapPropagator for TextReader {
    ghost use Rattle.std.specs.Prelude.{[], false};
    ghost use Rattle.std.specs.Option.{option_map_or};
    ghost use Rattle.otel_base.specs.AnyValue.{text};
    ghost use Rattle.otel_context.specs.Context.{with_value};
    ghost use Rattle.opentelemetry.specs.Carrier.{get};

    ghost pairs = { λ _ _. [] };

    ghost extracted = { λ m context texts.
        option_map_or (λ t. with_value context m.entry.now (text t)) (get texts m.key.now) context };

    ghost field_names = { λ _. [] };

    ghost may_refuse = { λ _. false };

    fn inject_context(
        &self,
        _context: &Context,
        _injector: &mut dyn Injector,
    ) -> Result<(), PropagationError> {
        Ok(())
    }

    fn extract_with_context(
        &self,
        alloc: Global,
        context: &Context,
        extractor: &dyn Extractor,
    ) -> Result<Context, PropagationError> {
        match extractor.get(alloc, self.key)? {
            Some(found) => Ok(with_text(alloc, context, self.entry, found)?),
            None => Ok(context.clone()?),
        }
    }

    fn fields(&self) -> FieldIter<'_> {
        FieldIter::new(&[])
    }
}

#[test]
fn each_member_starts_from_the_one_before(rt: HostRuntime) -> Result<(), Fail> {
    let alloc = rt.alloc();
    let mut members: Vec<Box<dyn TextMapPropagator>> = Vec::new(alloc);
    members.push(Box::new(
        alloc,
        TextReader {
            key: "K",
            entry: "a",
        },
    )?)?;
    members.push(Box::new(alloc, EntryCopier { from: "a", to: "b" })?)?;
    let composite = TextMapCompositePropagator::new(alloc, members)?;
    let texts = map_of(alloc, &[("k", "1")])?;
    match composite.extract_with_context(alloc, &Context::new(), &texts) {
        Ok(given) => {
            assert_eq!(rt; entry(&given, "a"), "1");
            assert_eq!(rt; entry(&given, "b"), "1");
        }
        Err(_) => assert!(rt; false),
    }
    Ok(())
}

/// A member that must not be called: it would extract an entry, and the test checks that it
/// doesn't.
#[test]
fn a_member_refuses_extraction_between_two(rt: HostRuntime) -> Result<(), Fail> {
    let alloc = rt.alloc();
    let mut members: Vec<Box<dyn TextMapPropagator>> = Vec::new(alloc);
    members.push(Box::new(
        alloc,
        TextReader {
            key: "k",
            entry: "a",
        },
    )?)?;
    members.push(Box::new(alloc, RefusingMember)?)?;
    members.push(Box::new(
        alloc,
        TextReader {
            key: "k",
            entry: "b",
        },
    )?)?;
    let composite = TextMapCompositePropagator::new(alloc, members)?;
    let context = Context::new();
    let texts = map_of(alloc, &[("k", "1")])?;
    let given = composite.extract_with_context(alloc, &context, &texts);
    assert!(rt; matches!(given, Err(PropagationError::Refused)));
    assert_eq!(rt; entry(&context, "a"), "none");
    assert_eq!(rt; texts.len(), 1);
    Ok(())
}

#[test]
fn extraction_starts_from_the_current_context(rt: HostRuntime) -> Result<(), Fail> {
    let alloc = rt.alloc();
    let mut stack = ContextStack::new(alloc)?;
    stack.push(with_text(alloc, &Context::new(), "a", "1")?)?;
    let mut members: Vec<Box<dyn TextMapPropagator>> = Vec::new(alloc);
    members.push(Box::new(alloc, EntryCopier { from: "a", to: "b" })?)?;
    let composite = TextMapCompositePropagator::new(alloc, members)?;
    match composite.extract(alloc, &stack, &map_of(alloc, &[])?) {
        Ok(given) => assert_eq!(rt; entry(&given, "b"), "1"),
        Err(_) => assert!(rt; false),
    }
    Ok(())
}
