//! The context extracted from the filled carrier, for different members.
use crate::carry::carry;
use crate::name_member::NameMember;
use opentelemetry::Context;
use opentelemetry::propagation::text_map_propagator::FieldIter;
use opentelemetry::propagation::{
    Extractor, Injector, PropagationError, TextMapCompositePropagator, TextMapPropagator,
};
use opentelemetry::trace::SpanContext;
use otel_propagators::TraceContextPropagator;
use std::alloc::{AllocError, Global};
use std::test::Fail;

/// A member that sets nothing, whose injection and extraction return these errors, or a context
/// with an invalid span context.
#[derive(Drop)]
struct OddMember {
    injection: Option<PropagationError>,
    extraction: Option<PropagationError>,
}

impl TextMapPropagator for OddMember {
    ghost use Rattle.std.specs.Prelude.{true, []};
    ghost use Rattle.otel_ids.specs.SpanContext.{no_span_context};
    ghost use Rattle.otel_context.specs.Context.{with_remote_span_context};

    ghost pairs = { λ _ _. [] };

    ghost extracted = { λ _ context _. with_remote_span_context context no_span_context };

    ghost field_names = { λ _. [] };

    ghost may_refuse = { λ _. true };

    fn inject_context(
        &self,
        _context: &Context,
        _injector: &mut dyn Injector,
    ) -> Result<(), PropagationError> {
        self.injection.map_or(Ok(()), Err)
    }

    fn extract_with_context(
        &self,
        alloc: Global,
        context: &Context,
        _extractor: &dyn Extractor,
    ) -> Result<Context, PropagationError> {
        match self.extraction {
            Some(error) => Err(error),
            None => Ok(context.with_remote_span_context(alloc, SpanContext::NONE)?),
        }
    }

    fn fields(&self) -> FieldIter<'_> {
        FieldIter::new(&[])
    }
}

/// After a refused injection, nothing is extracted. A failed extraction is reported as such. An
/// active span is shown even if its ids are 0.
#[test]
fn reports_a_member_that_gives_up(rt: HostRuntime) -> Result<(), Fail> {
    let alloc = rt.alloc();
    let refused = Some(PropagationError::Refused);
    let no_memory = Some(PropagationError::Memory(AllocError));
    for (injection, extraction, lines, status) in [
        (refused, None, "inject: refused\n", 1),
        (no_memory, None, "inject: refused\n", 1),
        (refused, refused, "inject: refused\n", 1),
        (None, refused, "context-name=a\nextracted: refused\n", 1),
        (None, no_memory, "context-name=a\nextracted: no memory\n", 1),
        (
            None,
            None,
            "context-name=a\nextracted: 00000000000000000000000000000000 0000000000000000\n",
            0,
        ),
    ] {
        let mut members: Vec<Box<dyn TextMapPropagator>> = Vec::new(alloc);
        members.push(Box::new(alloc, NameMember::new(alloc)?)?)?;
        let odd = OddMember {
            injection,
            extraction,
        };
        members.push(Box::new(alloc, odd)?)?;
        let composite = TextMapCompositePropagator::new(alloc, members)?;
        let mut output = Vec::new(alloc);
        let met = carry(alloc, b"attach a".as_slice(), &mut output, &composite);
        assert_eq!(rt; met, status);
        let text = format!(in alloc; "attach 0: position 1\ncurrent: a\n{lines}")?;
        assert_eq!(rt; str::from_utf8(&output), Ok(text.as_str()));
    }
    Ok(())
}

/// The current context has an active span, which no member propagates.
#[test]
fn extracts_from_the_carrier_into_the_empty_context(rt: HostRuntime) -> Result<(), Fail> {
    let alloc = rt.alloc();
    let mut members: Vec<Box<dyn TextMapPropagator>> = Vec::new(alloc);
    members.push(Box::new(alloc, NameMember::new(alloc)?)?)?;
    let composite = TextMapCompositePropagator::new(alloc, members)?;
    let mut output = Vec::new(alloc);
    let status = carry(alloc, b"attach a v=1".as_slice(), &mut output, &composite);
    assert_eq!(rt; status, 0);
    let text = "attach 0: position 1\ncurrent: a\ncontext-name=a\nextracted: none\n";
    assert_eq!(rt; str::from_utf8(&output), Ok(text));
    Ok(())
}

/// The members are in the other order, and the first one's span context is replaced.
#[test]
fn extracts_by_all_members_in_order(rt: HostRuntime) -> Result<(), Fail> {
    let alloc = rt.alloc();
    for (is_odd_last, extracted) in [
        (
            true,
            "extracted: 00000000000000000000000000000000 0000000000000000\n",
        ),
        (
            false,
            "extracted: 00000000000000000000000000000001 0000000000000001\n",
        ),
    ] {
        let mut members: Vec<Box<dyn TextMapPropagator>> = Vec::new(alloc);
        let odd = OddMember {
            injection: None,
            extraction: None,
        };
        members.push(Box::new(alloc, odd)?)?;
        members.push(Box::new(alloc, TraceContextPropagator::new(alloc)?)?)?;
        if is_odd_last {
            members.swap(0, 1);
        }
        let composite = TextMapCompositePropagator::new(alloc, members)?;
        let mut output = Vec::new(alloc);
        let status = carry(alloc, b"attach a v=1".as_slice(), &mut output, &composite);
        assert_eq!(rt; status, 0);
        let text = str::from_utf8(&output).unwrap_or("not UTF-8");
        assert!(rt; text.ends_with(extracted), "{text}");
    }
    Ok(())
}
