//! Injections with a composite of two members: one for a context's name, and one for its trace
//! state.
use crate::contexts::{remote, Name};
use crate::task::Task;
use opentelemetry::propagation::text_map_propagator::FieldIter;
use opentelemetry::propagation::{
    Extractor, Injector, TextMapCompositePropagator, TextMapPropagator,
};
use opentelemetry::trace::TraceContextExt;
use opentelemetry::Context;
use std::collections::HashMap;
use std::hint::black_box;

pub fn play(task: &Task<'_>) -> Option<u64> {
    let context = remote();
    let composite = composite();
    match task.name {
        "inject_fresh_map" => task.repeat(|| {
            let mut carrier: HashMap<String, String> = HashMap::new();
            composite.inject_context(black_box(&context), &mut carrier);
            1 + black_box(carrier).len()
        }),
        "inject_same_map" => {
            let mut carrier: HashMap<String, String> = HashMap::new();
            task.repeat(|| {
                composite.inject_context(black_box(&context), black_box(&mut carrier));
                1
            })
        }
        _ => None,
    }
}

pub fn composite() -> TextMapCompositePropagator {
    TextMapCompositePropagator::new(vec![
        Box::new(NameMember(["Context-Name".to_string()])),
        Box::new(StateMember(["tracestate".to_string()])),
    ])
}

/// Sets `Context-Name` to the context's name, if it has one.
#[derive(Debug)]
struct NameMember([String; 1]);

impl TextMapPropagator for NameMember {
    fn inject_context(&self, context: &Context, injector: &mut dyn Injector) {
        if let Some(Name(name)) = context.get() {
            injector.set("Context-Name", name.clone());
        }
    }

    fn extract_with_context(&self, context: &Context, _extractor: &dyn Extractor) -> Context {
        context.clone()
    }

    fn fields(&self) -> FieldIter<'_> {
        FieldIter::new(&self.0)
    }
}

/// Sets `tracestate` to the header of the trace state of the context's span context, unless that is
/// empty.
#[derive(Debug)]
struct StateMember([String; 1]);

impl TextMapPropagator for StateMember {
    fn inject_context(&self, context: &Context, injector: &mut dyn Injector) {
        let span = context.span();
        let state = span.span_context().trace_state();
        if *state != Default::default() {
            injector.set("tracestate", state.header());
        }
    }

    fn extract_with_context(&self, context: &Context, _extractor: &dyn Extractor) -> Context {
        context.clone()
    }

    fn fields(&self) -> FieldIter<'_> {
        FieldIter::new(&self.0)
    }
}
