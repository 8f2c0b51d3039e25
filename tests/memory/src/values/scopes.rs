//! Calls on instrumentation scopes.
use crate::lines::Lines;
use crate::shown::{Show, answer_shown};
use otel_base::{
    InstrumentationScope, InstrumentationScopeBuilder, Key, KeyValue, StringValue, Value,
};
use std::alloc::{AllocError, Global};

pub fn play<R: Print>(alloc: Global, lines: &Lines<'_, R>) {
    if lines.begin("scope-build") {
        lines.end(build(alloc, lines));
    }
    if lines.begin("scope-clone") {
        lines.end(copy(alloc, lines));
    }
    if lines.begin("scope-without-attributes") {
        if let Err(error) = without_attributes(alloc, lines) {
            lines.free("InstrumentationScopeBuilder::build", &error);
        }
    }
}

/// The attributes `k=2,j=0,k=1`.
pub fn attributes(alloc: Global) -> Result<Vec<KeyValue>, AllocError> {
    let mut attributes = Vec::new(alloc);
    for (key, number) in [("k", 2), ("j", 0), ("k", 1)] {
        attributes.push(KeyValue::new(Key::from(key), Value::I64(number)))?;
    }
    Ok(attributes)
}

/// A scope with these attributes.
fn builder(attributes: Vec<KeyValue>) -> InstrumentationScopeBuilder {
    InstrumentationScope::builder(StringValue::from("scope"))
        .with_version(StringValue::from("1.0"))
        .with_attributes(attributes)
}

fn build<R: Print>(alloc: Global, lines: &Lines<'_, R>) -> Result<(), AllocError> {
    let attributes = attributes(alloc)?;
    answer_shown(lines, builder(attributes).build(alloc));
    Ok(())
}

fn copy<R: Print>(alloc: Global, lines: &Lines<'_, R>) -> Result<(), AllocError> {
    let attributes = attributes(alloc)?;
    let scope = builder(attributes).build(alloc)?;
    lines.cloned(&scope);
    lines.receiver(&Show(&scope));
    Ok(())
}

/// A scope made with no attributes, or with the empty list.
fn bare(alloc: Global, has_list: bool) -> Result<InstrumentationScope, AllocError> {
    let mut builder = InstrumentationScope::builder(StringValue::from("m"));
    if has_list {
        builder = builder.with_attributes(Vec::new(alloc));
    }
    builder.build(alloc)
}

fn without_attributes<R: Print>(alloc: Global, lines: &Lines<'_, R>) -> Result<(), AllocError> {
    let scope = bare(alloc, false)?;
    beside_empty_list(alloc, lines, &scope)
}

/// Compares it with a scope made with the empty list.
fn beside_empty_list<R: Print>(
    alloc: Global,
    lines: &Lines<'_, R>,
    scope: &InstrumentationScope,
) -> Result<(), AllocError> {
    let other = bare(alloc, true)?;
    lines.free("InstrumentationScopeBuilder::build", &"a scope");
    lines.free("InstrumentationScope::name", &scope.name());
    lines.free(
        "InstrumentationScope::version",
        &scope.version().unwrap_or("none"),
    );
    lines.free(
        "InstrumentationScope::schema_url",
        &scope.schema_url().unwrap_or("none"),
    );
    lines.free(
        "InstrumentationScope::attributes",
        &scope.attributes().len(),
    );
    lines.free("InstrumentationScope::eq", &(*scope == other));
    Ok(())
}
