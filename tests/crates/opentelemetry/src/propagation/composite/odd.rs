//! Odd carriers and odd members.
use crate::members::{RefusingCarrier, RefusingMember, assert_held, composite_of, entry, set_all};
use opentelemetry::context::Context;
use opentelemetry::logs::AnyValue;
use opentelemetry::propagation::text_map_propagator::FieldIter;
use opentelemetry::propagation::{
    Extractor, Injector, PropagationError, TextMapCompositePropagator, TextMapPropagator,
};
use opentelemetry::{Key, StringValue};
use std::alloc::{AllocError, Global};
use std::cell::Cell;
use std::collections::HashMap;
use std::process::Abort;
use std::test::Fail;
use test_support::held;

#[test]
fn nothing_is_set_after_a_refusal(rt: HostRuntime) -> Result<(), Fail> {
    let alloc = rt.alloc();
    let composite = composite_of(alloc, &[&[("x", "1"), ("y", "2")], &[("X", "3")]])?;
    let mut carrier = RefusingCarrier {
        texts: HashMap::new(alloc),
        asked: 0,
    };
    let answer = composite.inject_context(&Context::new(), &mut carrier);
    assert!(rt; answer == Err(PropagationError::Refused));
    assert_eq!(rt; carrier.asked, 1);
    Ok(())
}

/// A carrier that stores each text under another key than given. It breaks the law of
/// `Injector::set`, and couldn't be proved.
#[derive(Drop)]
struct RenamingCarrier {
    texts: HashMap<String, String>,
}

impl Injector for RenamingCarrier {
    ghost use Rattle.opentelemetry.specs.Carrier.{map_state};

    ghost state = { λ c. map_state c.texts.entries };

    fn set(&mut self, key: &str, value: String) -> Result<(), PropagationError> {
        let mut name = String::from_str(*value.allocator(), "x-")?;
        name.push_str(key)?;
        Injector::set(&mut self.texts, name.as_str(), value)
    }
}

/// A composite doesn't inspect a carrier after setting a text: each is set once, in order.
#[test]
fn a_carrier_may_choose_other_keys(rt: HostRuntime) -> Result<(), Fail> {
    let alloc = rt.alloc();
    let composite = composite_of(alloc, &[&[("x", "1"), ("Y", "2")], &[("X", "3")]])?;
    let mut carrier = RenamingCarrier {
        texts: HashMap::new(alloc),
    };
    set_all(alloc, &mut carrier.texts, &[("x", "0")])?;
    assert!(rt;
        composite
            .inject_context(&Context::new(), &mut carrier)
            .is_ok()
    );
    assert_eq!(rt; carrier.texts.len(), 3);
    assert_held(
        &rt,
        &carrier.texts,
        &[("x", "0"), ("x-x", "3"), ("x-y", "2"), ("y", "none")],
    );
    Ok(())
}

/// A carrier that returns each key twice, and counts how often a value is requested. It breaks the
/// law of `Extractor::keys`, and couldn't be proved.
#[derive(Drop)]
struct TwiceCarrier {
    texts: HashMap<String, String>,
    asked: Cell<u32>,
}

impl Extractor for TwiceCarrier {
    ghost use Rattle.opentelemetry.specs.Carrier.{text_map};

    ghost texts = { λ c. text_map c.texts.entries };

    fn get(&self, alloc: Global, key: &str) -> Result<Option<&str>, AllocError> {
        self.asked.set(self.asked.get() + 1);
        Extractor::get(&self.texts, alloc, key)
    }

    fn keys(&self, alloc: Global) -> Result<Vec<&str>, AllocError> {
        let mut twice = Vec::new(alloc);
        for key in Extractor::keys(&self.texts, alloc)? {
            twice.push(key)?;
            twice.push(key)?;
        }
        Ok(twice)
    }
}

fn twice_of(alloc: Global, pairs: &[(&str, &str)]) -> Result<TwiceCarrier, PropagationError> {
    let mut texts: HashMap<String, String> = HashMap::new(alloc);
    set_all(alloc, &mut texts, pairs)?;
    Ok(TwiceCarrier {
        texts,
        asked: Cell::new(0),
    })
}

/// Extracts an entry for each key of the carrier, named by the key and with its value.
#[derive(Drop)]
struct EveryKey;

impl TextMapPropagator for EveryKey {
    ghost use Rattle.std.specs.Prelude.{[], true};

    ghost pairs = { λ _ _. [] };

    ghost extracted = { λ _ context _. context };

    ghost field_names = { λ _. [] };

    ghost may_refuse = { λ _. true };

    fn inject_context(
        &self,
        _context: &Context,
        _injector: &mut dyn Injector,
    ) -> Result<(), PropagationError> {
        Ok(())
    }

    fn extract_with_context(
        &self,
        alloc: Global,
        context: &Context,
        extractor: &dyn Extractor,
    ) -> Result<Context, PropagationError> {
        let mut given = context.clone()?;
        for key in extractor.keys(alloc)? {
            let value = extractor.get(alloc, key)?.unwrap_or("none");
            let value = StringValue::from(String::from_str(alloc, value)?);
            let name = Key::from(String::from_str(alloc, key)?);
            given = given.with_value(alloc, name, AnyValue::String(value))?;
        }
        Ok(given)
    }

    fn fields(&self) -> FieldIter<'_> {
        FieldIter::new(&[])
    }
}

#[test]
fn a_carrier_may_give_its_keys_twice(rt: HostRuntime) -> Result<(), Fail> {
    let alloc = rt.alloc();
    let mut members: Vec<Box<dyn TextMapPropagator>> = Vec::new(alloc);
    members.push(Box::new(alloc, EveryKey)?)?;
    let composite = TextMapCompositePropagator::new(alloc, members)?;
    let carrier = twice_of(alloc, &[("a", "1"), ("b", "2")])?;
    match composite.extract_with_context(alloc, &Context::new(), &carrier) {
        Ok(given) => {
            assert_eq!(rt; entry(&given, "a"), "1");
            assert_eq!(rt; entry(&given, "b"), "2");
        }
        Err(_) => assert!(rt; false),
    }
    assert_eq!(rt; carrier.asked.get(), 4);
    let values = carrier.get_all(alloc, "A")?;
    assert_eq!(rt; values.map(|values| values.len()), Some(1));
    Ok(())
}

/// The composite of a member that requests each key, a number of refusing ones, and one more that
/// requests each key.
fn refusing_between(
    alloc: Global,
    refusing: usize,
) -> Result<TextMapCompositePropagator, AllocError> {
    let mut members: Vec<Box<dyn TextMapPropagator>> = Vec::new(alloc);
    members.push(Box::new(alloc, EveryKey)?)?;
    for _ in 0..refusing {
        members.push(Box::new(alloc, RefusingMember)?)?;
    }
    members.push(Box::new(alloc, EveryKey)?)?;
    TextMapCompositePropagator::new(alloc, members)
}

#[test]
fn no_member_is_asked_after_one_that_refuses(rt: HostRuntime) -> Result<(), Fail> {
    let alloc = rt.alloc();
    for (refusing, asked) in [(0usize, 4u32), (1, 2), (2, 2)] {
        let composite = refusing_between(alloc, refusing)?;
        let carrier = twice_of(alloc, &[("a", "1")])?;
        let given = composite.extract_with_context(alloc, &Context::new(), &carrier);
        let is_refused = matches!(&given, Err(PropagationError::Refused));
        assert_eq!(rt; is_refused, refusing > 0);
        assert_eq!(rt; given.is_ok(), refusing == 0);
        assert_eq!(rt; carrier.asked.get(), asked, "{refusing} refuse");
    }
    Ok(())
}

/// Lists of pairs of members, and the resulting texts of a map that contained `kept` and `k`.
type Odd = (
    &'static [&'static [(&'static str, &'static str)]],
    &'static str,
    usize,
);

/// Members that set nothing, and members that set one key three times.
const ODD_MEMBERS: &[Odd] = &[
    (&[&[]], "0", 2),
    (&[&[], &[], &[]], "0", 2),
    (&[&[], &[("k", "1")], &[]], "1", 2),
    (&[&[("k", "1"), ("K", "2"), ("k", "3")]], "3", 2),
    (&[&[("k", "1"), ("k", "1"), ("k", "")]], "", 2),
    (
        &[&[("k", "4")], &[("K", "1"), ("k", "2"), ("K", "3")]],
        "3",
        2,
    ),
    (
        &[&[("K", "1"), ("k", "2"), ("K", "3")], &[("k", "4")]],
        "4",
        2,
    ),
    (
        &[&[("k", "1"), ("l", "2"), ("k", "3"), ("k", "5")], &[]],
        "5",
        3,
    ),
];

fn assert_odd(rt: &impl Abort, alloc: Global, odd: &Odd) -> Result<(), Fail> {
    let (members, value, count) = odd;
    let composite = composite_of(alloc, members)?;
    let mut texts: HashMap<String, String> = HashMap::new(alloc);
    set_all(alloc, &mut texts, &[("kept", "9"), ("k", "0")])?;
    assert!(rt;
        composite
            .inject_context(&Context::new(), &mut texts)
            .is_ok()
    );
    assert_eq!(rt; held(&texts, "k"), *value, "{members:?}");
    assert_eq!(rt; held(&texts, "kept"), "9", "{members:?}");
    assert_eq!(rt; texts.len(), *count, "{members:?}");
    Ok(())
}

#[test]
fn members_may_set_nothing_or_one_key_three_times(rt: HostRuntime) -> Result<(), Fail> {
    for odd in ODD_MEMBERS {
        assert_odd(&rt, rt.alloc(), odd)?;
    }
    Ok(())
}
