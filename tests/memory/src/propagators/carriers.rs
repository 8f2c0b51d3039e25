//! Calls on carriers.
use crate::lines::Lines;
use opentelemetry::propagation::{Extractor, Injector, PropagationError};
use std::alloc::{AllocError, Global};
use std::collections::HashMap;

/// The key of the text that a carrier has at the start.
pub const KEPT: &str = "kept";

pub fn play<R: Print>(alloc: Global, lines: &Lines<'_, R>) {
    if lines.begin("carrier-set") {
        lines.end(set(alloc, lines));
    }
    if lines.begin("carrier-reserve") {
        lines.end(reserve(alloc, lines));
    }
    if lines.begin("carrier-looks") {
        lines.end(looks(alloc, lines));
    }
}

/// A carrier with one text.
pub fn carrier(alloc: Global) -> Result<HashMap<String, String>, AllocError> {
    let mut carrier: HashMap<String, String> = HashMap::new(alloc);
    let value = String::from_str(alloc, "0")?;
    let key = String::from_str(alloc, KEPT)?;
    carrier.insert(key, value)?;
    Ok(carrier)
}

/// Whether the carrier has this value for the key.
pub fn holds(carrier: &HashMap<String, String>, key: &str, value: &str) -> bool {
    match carrier.get(key) {
        Some(held) => held.as_str() == value,
        None => false,
    }
}

/// Whether the first `count` of `kept` and `x` are present with their values, and nothing else.
fn is_beginning(carrier: &HashMap<String, String>, len: usize) -> bool {
    carrier.len() == len && holds(carrier, KEPT, "0") && (len < 2 || holds(carrier, "x", "1"))
}

/// Whether the carrier has texts for a prefix of these keys, and nothing else.
pub fn holds_beginning(carrier: &HashMap<String, String>, keys: &[&str]) -> bool {
    for place in 0..keys.len() {
        if carrier.get(keys[place]).is_some() != (place < carrier.len()) {
            return false;
        }
    }
    true
}

/// Prints the result of an injection. The carrier then has a text for each key or, after an error,
/// for a prefix of them, which starts with its own.
pub fn injected<R: Print>(
    lines: &Lines<'_, R>,
    answer: Result<(), PropagationError>,
    carrier: &HashMap<String, String>,
    keys: &[&str],
) {
    let is_due = answer.is_err() || carrier.len() == keys.len();
    lines.answer_named("injected", answer);
    lines.due(is_due && holds(carrier, KEPT, "0") && holds_beginning(carrier, keys));
}

fn set<R: Print>(alloc: Global, lines: &Lines<'_, R>) -> Result<(), AllocError> {
    let mut carrier = carrier(alloc)?;
    set_in(alloc, lines, &mut carrier)
}

fn set_in<R: Print>(
    alloc: Global,
    lines: &Lines<'_, R>,
    carrier: &mut HashMap<String, String>,
) -> Result<(), AllocError> {
    let value = String::from_str(alloc, "1")?;
    let answer = Injector::set(carrier, "X", value);
    let len = if answer.is_ok() { 2 } else { 1 };
    lines.answer_named("set", answer);
    lines.due(is_beginning(carrier, len));
    Ok(())
}

/// A hint may allocate. The texts of the carrier stay.
fn reserve<R: Print>(alloc: Global, lines: &Lines<'_, R>) -> Result<(), AllocError> {
    let mut carrier = carrier(alloc)?;
    Injector::reserve(&mut carrier, 1000);
    lines.due(is_beginning(&carrier, 1));
    Ok(())
}

fn looks<R: Print>(alloc: Global, lines: &Lines<'_, R>) -> Result<(), AllocError> {
    let carrier = carrier(alloc)?;
    got(alloc, lines, &carrier);
    all_got(alloc, lines, &carrier);
    lines.due(is_beginning(&carrier, 1));
    Ok(())
}

fn got<R: Print>(alloc: Global, lines: &Lines<'_, R>, carrier: &HashMap<String, String>) {
    match Extractor::get(carrier, alloc, "KEPT") {
        Ok(value) => lines.answer(&value.unwrap_or("none")),
        Err(error) => lines.answer(&error),
    }
}

fn all_got<R: Print>(alloc: Global, lines: &Lines<'_, R>, carrier: &HashMap<String, String>) {
    match Extractor::get_all(carrier, alloc, "KEPT") {
        Ok(Some(values)) => lines.answer(&values.len()),
        Ok(None) => lines.answer(&0),
        Err(error) => lines.answer(&error),
    }
    match Extractor::keys(carrier, alloc) {
        Ok(keys) => lines.answer(&keys.len()),
        Err(error) => lines.answer(&error),
    }
}
