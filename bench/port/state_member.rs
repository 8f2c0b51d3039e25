//! A propagator for only the trace state of a context.
ghost use Rattle.std.specs.Prelude.{◌≡◌, IfOk, map, string_bytes};
ghost use Rattle.otel_bench.specs.StateMember.{state_fields};

use opentelemetry::Context;
use opentelemetry::propagation::text_map_propagator::FieldIter;
use opentelemetry::propagation::{Extractor, Injector, PropagationError, TextMapPropagator};
use opentelemetry::trace::TraceState;
use std::alloc::{AllocError, Global};

/// Sets `tracestate` to the header of the trace state of the context's span context, unless that is
/// empty.
#[derive(Drop)]
pub struct StateMember {
    /// The allocator of the texts that are set.
    pub alloc: Global,
    /// The names of its fields.
    pub fields: Vec<String>,
}

impl StateMember {
    /// The member, with its field `tracestate`.
    ///
    /// # Errors
    ///
    /// `AllocError` if out of memory for the field's name.
    pub fn new(alloc: Global) -> Result<StateMember, AllocError>
        ensures { IfOk result (λ member. map string_bytes member.fields.items ≡ state_fields) }
    {
        let fields = vec![in alloc; String::from_str(alloc, "tracestate")?]?;
        Ok(StateMember { alloc, fields })
    }
}

impl TextMapPropagator for StateMember {
    ghost use Rattle.std.specs.Prelude.{false, map, string_bytes};
    ghost use Rattle.otel_bench.specs.StateMember.{state_pairs};

    ghost pairs = { λ _ context. state_pairs context };

    ghost extracted = { λ _ context _. context };

    ghost field_names = { λ member. map string_bytes member.fields.items };

    ghost may_refuse = { λ _. false };

    fn inject_context(
        &self,
        context: &Context,
        injector: &mut dyn Injector,
    ) -> Result<(), PropagationError> {
        let state = context.span_context().trace_state();
        if *state == TraceState::NONE {
            return Ok(());
        }
        injector.set("tracestate", state.header(self.alloc)?)
    }

    fn extract_with_context(
        &self,
        _alloc: Global,
        context: &Context,
        _extractor: &dyn Extractor,
    ) -> Result<Context, PropagationError> {
        Ok(context.clone()?)
    }

    fn fields(&self) -> FieldIter<'_> {
        FieldIter::new(&self.fields)
    }
}
