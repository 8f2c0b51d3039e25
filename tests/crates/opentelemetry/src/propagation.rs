//! Carriers: maps of texts, and the provided calls.
mod composite;
mod error;
mod text_map_propagator;

use crate::members::{RefusingCarrier, assert_held, carrier_refusing_after, composite_of, set_all};
use opentelemetry::context::Context;
use opentelemetry::propagation::{Extractor, Injector, PropagationError};
use std::alloc::{AllocError, Global};
use std::collections::HashMap;
use std::test::Fail;
use test_support::map_of;

/// The texts that are set in turn, and the texts that the map then contains under these keys.
const SET: &[(&str, &str)] = &[
    ("Foo", "1"),
    ("foo", "2"),
    ("\u{c9}", "1"),
    ("\u{e9}", "2"),
    ("\u{212a}", "1"),
    ("", "1"),
];

const HELD: &[(&str, &str)] = &[
    ("foo", "2"),
    ("Foo", "none"),
    ("\u{c9}", "1"),
    ("\u{e9}", "2"),
    ("\u{212a}", "1"),
    ("k", "none"),
    ("", "1"),
];

#[test]
fn keys_are_lowered_in_ascii_alone(rt: HostRuntime) -> Result<(), Fail> {
    let mut texts: HashMap<String, String> = HashMap::new(rt.alloc());
    Injector::reserve(&mut texts, 10);
    set_all(rt.alloc(), &mut texts, SET)?;
    assert_held(&rt, &texts, HELD);
    assert_eq!(rt; texts.len(), 5);
    Ok(())
}

#[test]
fn a_map_is_read_by_lower_keys(rt: HostRuntime) -> Result<(), Fail> {
    let alloc = rt.alloc();
    let mut texts = map_of(alloc, &[("BAR", "0")])?;
    assert!(rt; Injector::set(&mut texts, "Foo", String::from_str(alloc, "1")?).is_ok());
    assert!(rt; Injector::set(&mut texts, "foo", String::from_str(alloc, "2")?).is_ok());
    assert_eq!(rt; Extractor::get(&texts, alloc, "FOO")?, Some("2"));
    assert_eq!(rt; Extractor::get(&texts, alloc, "BAR")?, None);
    assert_eq!(rt;
        Extractor::keys(&texts, alloc)?.as_slice(),
        ["BAR", "foo"].as_slice()
    );
    let values = Extractor::get_all(&texts, alloc, "Foo")?;
    assert_eq!(rt; values.map(|values| values.len()), Some(1));
    assert!(rt; Extractor::get_all(&texts, alloc, "bar")?.is_none());
    Ok(())
}

#[test]
fn keys_rise_by_their_bytes(rt: HostRuntime) -> Result<(), Fail> {
    let alloc = rt.alloc();
    let texts = map_of(
        alloc,
        &[
            ("b", ""),
            ("\u{e9}", ""),
            ("", ""),
            ("B", ""),
            ("a-", ""),
            ("a", ""),
        ],
    )?;
    let keys = Extractor::keys(&texts, alloc)?;
    assert_eq!(rt;
        keys.as_slice(),
        ["", "B", "a", "a-", "b", "\u{e9}"].as_slice()
    );
    Ok(())
}

/// The texts that are set in turn, and the results of `get`: a key is lowered in ASCII only.
const GOTTEN: &[(&str, Option<&str>)] = &[
    ("\u{c9}", Some("1")),
    ("\u{e9}", Some("2")),
    ("\u{212a}", Some("1")),
    ("k", None),
    ("K", None),
    ("", Some("1")),
    (" ", None),
];

#[test]
fn odd_keys_are_found_as_they_stand(rt: HostRuntime) -> Result<(), Fail> {
    let alloc = rt.alloc();
    let mut texts: HashMap<String, String> = HashMap::new(alloc);
    let pairs = &[
        ("\u{c9}", "1"),
        ("\u{e9}", "2"),
        ("\u{212a}", "1"),
        ("", "1"),
    ];
    set_all(alloc, &mut texts, pairs)?;
    for (key, value) in GOTTEN {
        assert_eq!(rt; Extractor::get(&texts, alloc, key)?, *value, "{key:?}");
    }
    let keys = Extractor::keys(&texts, alloc)?;
    let wanted = ["", "\u{c9}", "\u{e9}", "\u{212a}"];
    assert_eq!(rt; keys.as_slice(), wanted.as_slice());
    Ok(())
}

/// A carrier with two values per key.
#[derive(Drop)]
struct Doubled {
    texts: HashMap<String, String>,
}

impl Extractor for Doubled {
    ghost use Rattle.opentelemetry.specs.Carrier.{text_map};

    ghost texts = { λ c. text_map c.texts.entries };

    fn get(&self, alloc: Global, key: &str) -> Result<Option<&str>, AllocError> {
        Extractor::get(&self.texts, alloc, key)
    }

    fn keys(&self, alloc: Global) -> Result<Vec<&str>, AllocError> {
        Extractor::keys(&self.texts, alloc)
    }

    fn get_all(&self, alloc: Global, key: &str) -> Result<Option<Vec<&str>>, AllocError> {
        match self.get(alloc, key)? {
            Some(value) => Ok(Some(vec![in alloc; value, value]?)),
            None => Ok(None),
        }
    }
}

#[test]
fn a_carrier_gives_all_its_values(rt: HostRuntime) -> Result<(), Fail> {
    let alloc = rt.alloc();
    let carrier = Doubled {
        texts: map_of(alloc, &[("k", "v")])?,
    };
    match carrier.get_all(alloc, "K")? {
        Some(values) => assert_eq!(rt; values.as_slice(), ["v", "v"].as_slice()),
        None => assert!(rt; false),
    }
    assert!(rt; carrier.get_all(alloc, "l")?.is_none());
    Ok(())
}

/// A carrier whose `reserve` requests more memory than there is, and fails.
#[derive(Drop)]
struct GreedyCarrier {
    texts: HashMap<String, String>,
    failed: u32,
}

impl Injector for GreedyCarrier {
    ghost use Rattle.opentelemetry.specs.Carrier.{map_state};

    ghost state = { λ c. map_state c.texts.entries };

    fn set(&mut self, key: &str, value: String) -> Result<(), PropagationError> {
        Injector::set(&mut self.texts, key, value)
    }

    fn reserve(&mut self, additional: usize) {
        let _ = additional;
        if HashMap::reserve(&mut self.texts, usize::MAX).is_err() {
            self.failed += 1;
        }
    }
}

#[test]
fn room_that_cannot_be_had_is_no_fault(rt: HostRuntime) -> Result<(), Fail> {
    let alloc = rt.alloc();
    let composite = composite_of(alloc, &[&[("x", "1")], &[("y", "2")]])?;
    let mut greedy = GreedyCarrier {
        texts: HashMap::new(alloc),
        failed: 0,
    };
    let mut map: HashMap<String, String> = HashMap::new(alloc);
    for additional in [0, 10, usize::MAX] {
        greedy.reserve(additional);
        Injector::reserve(&mut map, additional);
    }
    assert_eq!(rt; greedy.failed, 3);
    assert_eq!(rt; map.len(), 0);
    // A carrier that reserves nothing.
    let mut plain = carrier_refusing_after(alloc, 2);
    plain.reserve(10);
    assert!(rt;
        composite
            .inject_context(&Context::new(), &mut greedy)
            .is_ok()
    );
    assert!(rt; composite.inject_context(&Context::new(), &mut map).is_ok());
    assert!(rt;
        composite
            .inject_context(&Context::new(), &mut plain)
            .is_ok()
    );
    for texts in [&greedy.texts, &map, &plain.texts] {
        assert_eq!(rt; texts.len(), 2);
        assert_held(&rt, texts, &[("x", "1"), ("y", "2")]);
    }
    Ok(())
}

#[test]
fn a_map_takes_keys_and_values_of_any_length(rt: HostRuntime) -> Result<(), Fail> {
    let alloc = rt.alloc();
    for count in [255, 256, 257, 100_000] {
        let upper = "K".repeat(alloc, count)?;
        let lower = "k".repeat(alloc, count)?;
        for (key, lowered, value) in [
            (upper.as_str(), lower.as_str(), "1"),
            ("K", "k", lower.as_str()),
        ] {
            let mut texts: HashMap<String, String> = HashMap::new(alloc);
            set_all(alloc, &mut texts, &[(key, value)])?;
            assert_eq!(rt; texts.len(), 1, "{count} bytes");
            assert_held(&rt, &texts, &[(lowered, value)]);
            assert_eq!(rt; Extractor::get(&texts, alloc, key)?, Some(value));
        }
    }
    Ok(())
}

#[test]
fn all_values_of_a_key_are_the_one_that_was_set(rt: HostRuntime) -> Result<(), Fail> {
    let alloc = rt.alloc();
    let mut texts: HashMap<String, String> = HashMap::new(alloc);
    set_all(alloc, &mut texts, &[("headerName", "value")])?;
    match Extractor::get_all(&texts, alloc, "HEADERNAME")? {
        Some(values) => assert_eq!(rt; values.as_slice(), ["value"].as_slice()),
        None => assert!(rt; false),
    }
    assert!(rt; Extractor::get_all(&texts, alloc, "missing_key")?.is_none());
    Ok(())
}

#[test]
fn a_text_is_set_after_any_reserve(rt: HostRuntime) -> Result<(), Fail> {
    let alloc = rt.alloc();
    let mut texts: HashMap<String, String> = HashMap::new(alloc);
    for (additional, value) in [(10, "1"), (0, "2")] {
        Injector::reserve(&mut texts, additional);
        set_all(alloc, &mut texts, &[("headerName", value)])?;
        assert_eq!(rt; Extractor::get(&texts, alloc, "headerName")?, Some(value));
    }
    assert_eq!(rt; texts.len(), 1);
    Ok(())
}

#[test]
fn a_reserve_is_no_text_that_is_refused(rt: HostRuntime) -> Result<(), Fail> {
    let mut carrier = RefusingCarrier {
        texts: HashMap::new(rt.alloc()),
        asked: 0,
    };
    carrier.reserve(4711);
    assert_eq!(rt; carrier.asked, 0);
    assert!(rt; carrier.set("x", String::new(rt.alloc())).is_err());
    assert_eq!(rt; carrier.asked, 1);
    Ok(())
}
