//! Providers of tracers.
use opentelemetry::context::{Context, ContextStack};
use opentelemetry::trace::noop::NoopSpan;
use opentelemetry::trace::{Span, SpanBuilder, Tracer, TracerProvider};
use opentelemetry::{InstrumentationScope, StringValue};
use std::alloc::{AllocError, Global};
use std::test::Fail;

/// A tracer that stores the scope for which it was made.
#[derive(Drop)]
struct ScopedTracer {
    scope: InstrumentationScope,
}

impl Tracer for ScopedTracer {
    type Span = NoopSpan;

    ghost may_build = { λ _ _ _ _. Unit {0} };

    fn build_with_context(
        &self,
        _alloc: Global,
        _builder: SpanBuilder,
        _parent: &Context,
    ) -> Result<NoopSpan, AllocError> {
        Ok(NoopSpan::DEFAULT)
    }
}

struct ScopedProvider;

impl TracerProvider for ScopedProvider {
    type Tracer = ScopedTracer;

    ghost may_give = { λ _ _ _. Unit {0} };

    fn tracer_with_scope(
        &self,
        _alloc: Global,
        scope: InstrumentationScope,
    ) -> Result<ScopedTracer, AllocError> {
        Ok(ScopedTracer { scope })
    }
}

#[test]
fn a_tracer_of_a_name_has_that_name_only(rt: HostRuntime) -> Result<(), Fail> {
    let alloc = rt.alloc();
    for name in ["", "lib"] {
        let tracer = ScopedProvider.tracer(alloc, StringValue::from(name))?;
        assert_eq!(rt; tracer.scope.name(), name);
        assert!(rt; tracer.scope.version().is_none());
        assert!(rt; tracer.scope.schema_url().is_none());
        assert_eq!(rt; tracer.scope.attributes().count(), 0);
        let span = tracer.start(alloc, &ContextStack::new(alloc)?, StringValue::from("n"))?;
        assert!(rt; !span.is_recording());
    }
    Ok(())
}
