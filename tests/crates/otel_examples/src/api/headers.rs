//! Headers as a custom carrier.
use opentelemetry::propagation::{Extractor, Injector};
use otel_examples::api::headers::Headers;
use std::alloc::{AllocError, Global};
use std::test::Fail;

/// Headers with these names and values.
pub fn headers(alloc: Global, pairs: &[(&str, &str)]) -> Result<Headers, AllocError> {
    let mut held = Vec::new(alloc);
    for (name, value) in pairs {
        held.push((
            String::from_str(alloc, *name)?,
            String::from_str(alloc, *value)?,
        ))?;
    }
    Ok(Headers { pairs: held })
}

/// Returns whether the headers are these pairs, in order.
pub fn holds(headers: &Headers, pairs: &[(&str, &str)]) -> bool {
    headers.pairs.len() == pairs.len()
        && headers.pairs.iter().zip(pairs).all(|(held, pair)| held.0.as_str() == pair.0
            && held.1.as_str() == pair.1)
}

#[test]
fn a_set_header_keeps_its_place_and_a_new_one_goes_last(rt: HostRuntime) -> Result<(), Fail> {
    let alloc = rt.alloc();
    let mut sent = headers(alloc, &[("a", "1"), ("b", "2")])?;
    sent.set("A", String::from_str(alloc, "3")?)?;
    sent.set("C", String::from_str(alloc, "4")?)?;
    assert!(rt; holds(&sent, &[("a", "3"), ("b", "2"), ("c", "4")]));
    Ok(())
}

#[test]
fn of_a_name_that_stands_twice_the_first_counts(rt: HostRuntime) -> Result<(), Fail> {
    let alloc = rt.alloc();
    let received = headers(alloc, &[("b", "1"), ("a", "2"), ("b", "3")])?;
    assert!(rt; received.get(alloc, "B")? == Some("1"));
    assert!(rt; received.get(alloc, "c")? == None);
    let keys = received.keys(alloc)?;
    assert_eq!(rt; keys.len(), 2);
    assert_eq!(rt; keys[0], "a");
    assert_eq!(rt; keys[1], "b");
    Ok(())
}
