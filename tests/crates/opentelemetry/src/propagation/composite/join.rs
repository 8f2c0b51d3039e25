//! Joined composites inject, extract and name fields as the members of both do, in order.
use crate::members::{
    EntryCopier, assert_fields, assert_held, composite_of, entry, stamps_of, with_text,
};
use opentelemetry::context::Context;
use opentelemetry::propagation::{TextMapCompositePropagator, TextMapPropagator};
use std::alloc::{AllocError, Global};
use std::process::Abort;
use std::test::Fail;
use test_support::map_of;

const FIRST: &[(&str, &str)] = &[("b", "1"), ("a", "1")];

const SECOND: &[(&str, &str)] = &[("a", "2"), ("c", "2")];

const THIRD: &[(&str, &str)] = &[("c", "3"), ("b", "3")];

#[test]
fn joins_have_the_members_of_both_in_order(rt: HostRuntime) -> Result<(), Fail> {
    let alloc = rt.alloc();
    let left = composite_of(alloc, &[FIRST])?
        .join(alloc, composite_of(alloc, &[SECOND])?)?
        .join(alloc, composite_of(alloc, &[THIRD])?)?;
    let inner = composite_of(alloc, &[SECOND])?.join(alloc, composite_of(alloc, &[THIRD])?)?;
    let right = composite_of(alloc, &[FIRST])?.join(alloc, inner)?;
    for composite in [left, right] {
        let mut texts = map_of(alloc, &[])?;
        assert!(rt;
            composite
                .inject_context(&Context::new(), &mut texts)
                .is_ok()
        );
        assert_held(&rt, &texts, &[("a", "2"), ("b", "3"), ("c", "3")]);
        assert_fields(&rt, &composite, &["b", "a", "c"]);
    }
    let turned = composite_of(alloc, &[THIRD])?.join(alloc, composite_of(alloc, &[FIRST])?)?;
    let mut texts = map_of(alloc, &[])?;
    assert!(rt; turned.inject_context(&Context::new(), &mut texts).is_ok());
    assert_held(&rt, &texts, &[("a", "1"), ("b", "1"), ("c", "3")]);
    assert_fields(&rt, &turned, &["c", "b", "a"]);
    Ok(())
}

/// A composite of two members: one names fields, the other copies an entry under another name.
#[derive(Clone, Copy)]
struct Half {
    fields: &'static [(&'static str, &'static str)],
    from: &'static str,
    to: &'static str,
}

const TO_B: Half = Half {
    fields: &[("x", ""), ("y", ""), ("x", "")],
    from: "a",
    to: "b",
};

const TO_C: Half = Half {
    fields: &[("y", ""), ("z", "")],
    from: "b",
    to: "c",
};

const TO_D: Half = Half {
    fields: &[("z", ""), ("x", "")],
    from: "c",
    to: "d",
};

fn composite_of_half(alloc: Global, half: Half) -> Result<TextMapCompositePropagator, AllocError> {
    let mut members: Vec<Box<dyn TextMapPropagator>> = Vec::new(alloc);
    members.push(Box::new(alloc, stamps_of(alloc, half.fields)?)?)?;
    members.push(Box::new(
        alloc,
        EntryCopier {
            from: half.from,
            to: half.to,
        },
    )?)?;
    TextMapCompositePropagator::new(alloc, members)
}

/// Checks the context extracted from one with only the entry `a`, and the fields.
fn assert_extracts(
    rt: &impl Abort,
    alloc: Global,
    composite: &TextMapCompositePropagator,
    entries: [&str; 3],
    fields: &[&str],
) -> Result<(), AllocError> {
    let context = with_text(alloc, &Context::new(), "a", "1")?;
    let texts = map_of(alloc, &[])?;
    match composite.extract_with_context(alloc, &context, &texts) {
        Ok(given) => {
            let [b, c, d] = entries;
            for (name, text) in [("a", "1"), ("b", b), ("c", c), ("d", d)] {
                assert_eq!(rt; entry(&given, name), text, "the entry {name}");
            }
        }
        Err(_) => assert!(rt; false),
    }
    assert_fields(rt, composite, fields);
    Ok(())
}

/// An entry is copied further only if its copier comes after the member that made it.
#[test]
fn two_halves_extract_in_each_order(rt: HostRuntime) -> Result<(), Fail> {
    let alloc = rt.alloc();
    for (first, second, entries, fields) in [
        (TO_B, TO_C, ["1", "1", "none"], ["x", "y", "z"]),
        (TO_C, TO_B, ["1", "none", "none"], ["y", "z", "x"]),
        (TO_D, TO_B, ["1", "none", "none"], ["z", "x", "y"]),
    ] {
        let joined = composite_of_half(alloc, first)?.join(
            alloc,
            composite_of_half(alloc, second)?,
        )?;
        assert_extracts(&rt, alloc, &joined, entries, &fields)?;
    }
    Ok(())
}

/// A join of a join, on either side, has the members of all three in order.
#[test]
fn joins_of_joins_extract_in_each_order(rt: HostRuntime) -> Result<(), Fail> {
    let alloc = rt.alloc();
    for (halves, entries, fields) in [
        ([TO_B, TO_C, TO_D], ["1", "1", "1"], ["x", "y", "z"]),
        ([TO_B, TO_D, TO_C], ["1", "1", "none"], ["x", "y", "z"]),
        ([TO_C, TO_B, TO_D], ["1", "none", "none"], ["y", "z", "x"]),
        ([TO_C, TO_D, TO_B], ["1", "none", "none"], ["y", "z", "x"]),
        ([TO_D, TO_B, TO_C], ["1", "1", "none"], ["z", "x", "y"]),
        ([TO_D, TO_C, TO_B], ["1", "none", "none"], ["z", "x", "y"]),
    ] {
        let [first, second, third] = halves;
        let left = composite_of_half(alloc, first)?
            .join(alloc, composite_of_half(alloc, second)?)?
            .join(alloc, composite_of_half(alloc, third)?)?;
        assert_extracts(&rt, alloc, &left, entries, &fields)?;
        let inner = composite_of_half(alloc, second)?.join(
            alloc,
            composite_of_half(alloc, third)?,
        )?;
        let right = composite_of_half(alloc, first)?.join(alloc, inner)?;
        assert_extracts(&rt, alloc, &right, entries, &fields)?;
    }
    Ok(())
}

/// A composite without members, joined on either side, adds nothing.
#[test]
fn a_join_with_no_members_is_the_other(rt: HostRuntime) -> Result<(), Fail> {
    let alloc = rt.alloc();
    let none = TextMapCompositePropagator::new(alloc, Vec::new(alloc))?;
    let before = none.join(alloc, composite_of_half(alloc, TO_B)?)?;
    assert_extracts(&rt, alloc, &before, ["1", "none", "none"], &["x", "y"])?;
    let none = TextMapCompositePropagator::new(alloc, Vec::new(alloc))?;
    let after = composite_of_half(alloc, TO_B)?.join(alloc, none)?;
    assert_extracts(&rt, alloc, &after, ["1", "none", "none"], &["x", "y"])?;
    Ok(())
}

#[test]
fn a_join_of_two_without_members_has_none(rt: HostRuntime) -> Result<(), Fail> {
    let alloc = rt.alloc();
    let none = TextMapCompositePropagator::new(alloc, Vec::new(alloc))?;
    let other = TextMapCompositePropagator::new(alloc, Vec::new(alloc))?;
    let joined = none.join(alloc, other)?;
    let mut texts = map_of(alloc, &[("x", "1")])?;
    assert!(rt; joined.inject_context(&Context::new(), &mut texts).is_ok());
    assert_eq!(rt; texts.len(), 1);
    assert_held(&rt, &texts, &[("x", "1")]);
    assert_extracts(&rt, alloc, &joined, ["none", "none", "none"], &[])?;
    Ok(())
}
