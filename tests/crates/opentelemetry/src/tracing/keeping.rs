//! A source of spans that keeps the spans that ended.
use opentelemetry::Context;
use opentelemetry::trace::{
    Span, SpanBuilder, SpanContext, SpanId, SpanSource, TraceFlags, TraceId, TraceState,
};
use otel_examples::recording::RecordingSpan;
use std::alloc::{AllocError, Global};
use std::cell::Cell;

/// Gives its spans the ids after `first`, in order, and keeps each span that has ended. A root has
/// its span id as its trace id. The clock shows 1, 2, ..
#[derive(Drop)]
pub struct Keeping {
    first: u64,
    built: Cell<u64>,
    moment: Cell<u64>,
    /// Whether its spans fail to record, as if out of memory.
    pub fails: bool,
    /// For how many open spans there is memory.
    pub most: usize,
    /// The spans that ended, in order.
    pub taken: Vec<RecordingSpan>,
}

impl Keeping {
    /// Returns the source.
    pub fn new(alloc: Global, first: u64) -> Keeping {
        Keeping {
            first,
            built: Cell::new(0),
            moment: Cell::new(0),
            fails: false,
            most: usize::MAX,
            taken: Vec::new(alloc),
        }
    }

    /// Returns the number of the span, from 0 on.
    pub fn number_of(&self, span: &RecordingSpan) -> u64 {
        let id = u64::from_be_bytes(span.span_context().span_id().to_bytes());
        id.wrapping_sub(self.first).wrapping_sub(1)
    }

    /// Returns the number of the root of the span's trace.
    pub fn trace_of(&self, span: &RecordingSpan) -> u64 {
        let [.., a, b, c, d, e, f, g, h] = span.span_context().trace_id().to_bytes();
        let id = u64::from_be_bytes([a, b, c, d, e, f, g, h]);
        id.wrapping_sub(self.first).wrapping_sub(1)
    }
}

impl SpanSource for Keeping {
    ghost use Rattle.std.specs.Prelude.{[], false, refl};
    ghost use Rattle.opentelemetry.specs.SpanSource.{ids_of_context};

    type Span = RecordingSpan;

    ghost calls = { record {
      is_disabled = λ _. false;
      may_show = λ _ _. Unit {0};
      may_build = λ _ _ _ _. Unit {0};
      begins = λ _ _ _ _ _. Unit {0};
      takes = λ _ _ _. Unit {0};
      begun = λ _. [];
      taken = λ _. [];
      ids_of = λ span. ids_of_context span.context;
    } };

    fn is_disabled(&self) -> bool {
        false
    }

    fn now(&self) -> u64 {
        self.moment.set(self.moment.get().wrapping_add(1));
        self.moment.get()
    }

    fn build(
        &self,
        alloc: Global,
        builder: SpanBuilder,
        parent: &Context,
    ) -> Result<RecordingSpan, AllocError> {
        self.built.set(self.built.get().wrapping_add(1));
        let id = self.first.wrapping_add(self.built.get());
        let above = parent.span_context();
        let trace_id = if above.is_valid() {
            above.trace_id()
        } else {
            TraceId::from(id as u128)
        };
        let own = SpanContext::new(
            trace_id,
            SpanId::from(id),
            TraceFlags::SAMPLED,
            false,
            TraceState::NONE,
        );
        let mut span = RecordingSpan::new(alloc, own, builder.name);
        if self.fails {
            span.fail_after(0);
        }
        Ok(span)
    }

    fn reserve(&mut self, open: usize) -> Result<(), AllocError> {
        if open > self.most {
            return Err(AllocError);
        }
        Ok(())
    }

    fn begin(&mut self, _alloc: Global, _span: &mut RecordingSpan, _parent: &Context) {}

    fn take(&mut self, span: RecordingSpan) {
        drop(self.taken.push(span));
    }

    ghost keeps_ids = { record {
      event = λ _ _ _ _. refl;
      attribute = λ _ _. refl;
      link = λ _ _ _. refl;
      status = λ _ _. refl;
      name = λ _ _. refl;
      end = λ _ _. refl;
    } };
}
