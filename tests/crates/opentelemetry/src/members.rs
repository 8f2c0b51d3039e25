//! Members and carriers for the tests.
ghost use Rattle.std.specs.Prelude.{◌≡◌, ◌<◌, ◌≤◌, ◌∷◌, [], IsTrue, OnOk, OnErr, string_bytes};
ghost use Rattle.opentelemetry.specs.Carrier.{Sets};
ghost use Rattle.opentelemetry.specs.Refusal.{is_refused};

use opentelemetry::context::Context;
use opentelemetry::logs::AnyValue;
use opentelemetry::propagation::text_map_propagator::FieldIter;
use opentelemetry::propagation::{
    Extractor, Injector, PropagationError, TextMapCompositePropagator, TextMapPropagator,
};
use opentelemetry::{Key, StringValue};
use std::alloc::{AllocError, Global};
use std::collections::HashMap;
use std::process::Abort;
use test_support::held;

/// Sets the same pairs for each context, in order. Its fields are their keys.
#[derive(Drop)]
pub struct Stamps {
    pub pairs: Vec<(String, String)>,
    pub fields: Vec<String>,
}

fn set_copy(
    injector: &mut dyn Injector,
    key: &String,
    value: &String,
) -> Result<(), PropagationError>
    ensures ok { OnOk result (Sets (state injector.old).texts
        ((string_bytes key.now, string_bytes value.now) ∷ []) (state injector.new).texts) }
    ensures err { OnErr result ((state injector.new).texts ≡ (state injector.old).texts) }
    ensures refused { IsTrue (is_refused result)
        → (state injector.old).refusals < (state injector.new).refusals }
    ensures count { (state injector.old).refusals ≤ (state injector.new).refusals }
{
    let value = value.clone()?;
    injector.set(key, value)
}

impl TextMapPropagator for Stamps {
    ghost use Rattle.std.specs.Prelude.{false, map, string_bytes};
    ghost use Rattle.opentelemetry.specs.Carrier.{text_pair};

    ghost pairs = { λ s c. map text_pair s.pairs.items };

    ghost extracted = { λ _ context _. context };

    ghost field_names = { λ s. map string_bytes s.fields.items };

    ghost may_refuse = { λ s. false };

    fn inject_context(
        &self,
        context: &Context,
        injector: &mut dyn Injector,
    ) -> Result<(), PropagationError> {
        let _ = context;
        for (key, value) in &self.pairs {
            set_copy(&mut *injector, key, value)?;
        }
        Ok(())
    }

    fn extract_with_context(
        &self,
        _alloc: Global,
        context: &Context,
        _extractor: &dyn Extractor,
    ) -> Result<Context, PropagationError> {
        Ok(context.clone()?)
    }

    fn fields(&self) -> FieldIter<'_> {
        FieldIter::new(&self.fields)
    }
}

/// A member that refuses every context and every carrier, and sets nothing.
#[derive(Drop)]
pub struct RefusingMember;

impl TextMapPropagator for RefusingMember {
    ghost use Rattle.std.specs.Prelude.{[], true};

    ghost pairs = { λ s c. [] };

    ghost extracted = { λ _ context _. context };

    ghost field_names = { λ _. [] };

    ghost may_refuse = { λ s. true };

    fn inject_context(
        &self,
        _context: &Context,
        _injector: &mut dyn Injector,
    ) -> Result<(), PropagationError> {
        Err(PropagationError::Refused)
    }

    fn extract_with_context(
        &self,
        _alloc: Global,
        _context: &Context,
        _extractor: &dyn Extractor,
    ) -> Result<Context, PropagationError> {
        Err(PropagationError::Refused)
    }

    fn fields(&self) -> FieldIter<'_> {
        FieldIter::new(&[])
    }
}

/// Extracts a copy of one entry under another name, if it is a text.
#[derive(Drop)]
pub struct EntryCopier {
    pub from: &'static str,
    pub to: &'static str,
}

impl TextMapPropagator for EntryCopier {
    ghost use Rattle.std.specs.Prelude.{[], false};
    ghost use Rattle.std.specs.Option.{option_map_or};
    ghost use Rattle.otel_context.specs.Context.{get, with_value};

    ghost pairs = { λ _ _. [] };

    ghost extracted = { λ m context _.
        option_map_or (λ t. with_value context m.to.now t) (get context m.from.now) context };

    ghost field_names = { λ _. [] };

    ghost may_refuse = { λ _. false };

    fn inject_context(
        &self,
        _context: &Context,
        _injector: &mut dyn Injector,
    ) -> Result<(), PropagationError> {
        Ok(())
    }

    fn extract_with_context(
        &self,
        alloc: Global,
        context: &Context,
        _extractor: &dyn Extractor,
    ) -> Result<Context, PropagationError> {
        match context.get(self.from) {
            Some(value) => Ok(context.with_value(alloc, Key::from(self.to), value.clone()?)?),
            None => Ok(context.clone()?),
        }
    }

    fn fields(&self) -> FieldIter<'_> {
        FieldIter::new(&[])
    }
}

/// A carrier that refuses one text, after a number of others. Its `reserve` does nothing.
#[derive(Drop)]
pub struct CarrierRefusingOne {
    pub texts: HashMap<String, String>,
    pub before: usize,
    pub has_refused: bool,
}

impl Injector for CarrierRefusingOne {
    ghost use Rattle.std.specs.Prelude.{if◌then◌else◌};
    ghost use Rattle.opentelemetry.specs.Carrier.{text_map};

    ghost state = { λ c. record {
      texts = text_map c.texts.entries;
      refusals = if c.has_refused then 1 else 0;
    } };

    fn set(&mut self, key: &str, value: String) -> Result<(), PropagationError> {
        if self.has_refused {
            return Injector::set(&mut self.texts, key, value);
        }
        if self.before == 0 {
            self.has_refused = true;
            return Err(PropagationError::Refused);
        }
        self.before -= 1;
        Injector::set(&mut self.texts, key, value)
    }
}

/// A carrier that refuses each text, and counts how often it was asked.
#[derive(Drop)]
pub struct RefusingCarrier {
    pub texts: HashMap<String, String>,
    pub asked: u64,
}

impl Injector for RefusingCarrier {
    ghost use Rattle.opentelemetry.specs.Carrier.{text_map};

    ghost state = { λ c. record { texts = text_map c.texts.entries; refusals = c.asked } };

    fn set(&mut self, _key: &str, _value: String) -> Result<(), PropagationError> {
        self.asked += 1;
        Err(PropagationError::Refused)
    }
}

/// A member that sets these pairs.
pub fn stamps_of(alloc: Global, pairs: &[(&str, &str)]) -> Result<Stamps, AllocError> {
    let mut copies = Vec::new(alloc);
    let mut fields = Vec::new(alloc);
    for (key, value) in pairs {
        fields.push(String::from_str(alloc, key)?)?;
        copies.push((
            String::from_str(alloc, key)?,
            String::from_str(alloc, value)?,
        ))?;
    }
    Ok(Stamps {
        pairs: copies,
        fields,
    })
}

/// A carrier that refuses the text after this many.
pub fn carrier_refusing_after(alloc: Global, before: usize) -> CarrierRefusingOne {
    CarrierRefusingOne {
        texts: HashMap::new(alloc),
        before,
        has_refused: false,
    }
}

/// Sets these pairs in turn.
pub fn set_all(
    alloc: Global,
    texts: &mut HashMap<String, String>,
    pairs: &[(&str, &str)],
) -> Result<(), PropagationError> {
    for (key, value) in pairs {
        Injector::set(&mut *texts, key, String::from_str(alloc, value)?)?;
    }
    Ok(())
}

/// Asserts the value of each of these keys in the carrier; `none` means no value.
pub fn assert_held(rt: &impl Abort, texts: &HashMap<String, String>, pairs: &[(&str, &str)]) {
    for (key, value) in pairs {
        assert_eq!(rt; held(texts, key), *value, "{key}");
    }
}

/// The context with a text as an entry.
pub fn with_text(
    alloc: Global,
    context: &Context,
    entry: &'static str,
    text: &str,
) -> Result<Context, AllocError> {
    let text = StringValue::from(String::from_str(alloc, text)?);
    context.with_value(alloc, Key::from(entry), AnyValue::String(text))
}

/// The text of an entry, or `none`.
pub fn entry<'a>(context: &'a Context, name: &str) -> &'a str {
    match context.get(name) {
        Some(AnyValue::String(text)) => text.as_str(),
        _ => "none",
    }
}

/// Asserts the names of a composite's fields, in order.
pub fn assert_fields(rt: &impl Abort, composite: &TextMapCompositePropagator, wanted: &[&str]) {
    let mut fields = composite.fields();
    for name in wanted {
        assert_eq!(rt; fields.next(), Some(*name));
    }
    assert_eq!(rt; fields.next(), None);
}

/// The composite of a member for each of these lists of pairs.
pub fn composite_of(
    alloc: Global,
    members: &[&[(&str, &str)]],
) -> Result<TextMapCompositePropagator, AllocError> {
    let mut boxed: Vec<Box<dyn TextMapPropagator>> = Vec::new(alloc);
    for pairs in members {
        boxed.push(Box::new(alloc, stamps_of(alloc, pairs)?)?)?;
    }
    TextMapCompositePropagator::new(alloc, boxed)
}
