//! Calls on baggage.
use crate::lines::Lines;
use otel_base::{Key, KeyValue, StringValue, Value};
use otel_context::baggage::{Baggage, BaggageMetadata, KeyValueMetadata};
use std::alloc::{AllocError, Global};

/// A number of keys for which a baggage allocates more than once.
const KEYS: [&str; 12] = ["a", "b", "c", "d", "e", "f", "g", "h", "i", "j", "k", "l"];

pub fn play<R: Print>(alloc: Global, lines: &Lines<'_, R>) {
    if lines.begin("baggage-metadata") {
        lines.end(metadata(alloc, lines));
    }
    if lines.begin("baggage-from-key-value") {
        from_key_value(alloc, lines);
    }
    if lines.begin("baggage-key-value-metadata") {
        lines.end(key_value_metadata(alloc, lines));
    }
    if lines.begin("baggage-insert") {
        insert(alloc, lines, false);
    }
    if lines.begin("baggage-insert-with-metadata") {
        insert(alloc, lines, true);
    }
    play_made(alloc, lines);
    if lines.begin("baggage-in-place") {
        lines.end(in_place(alloc, lines));
    }
}

fn play_made<R: Print>(alloc: Global, lines: &Lines<'_, R>) {
    if lines.begin("baggage-from-pairs") {
        lines.end(from_pairs(alloc, lines));
    }
    if lines.begin("baggage-from-key-values") {
        lines.end(from_key_values(alloc, lines));
    }
    if lines.begin("baggage-from-key-values-with-metadata") {
        lines.end(from_key_values_with_metadata(alloc, lines));
    }
}

fn metadata<R: Print>(alloc: Global, lines: &Lines<'_, R>) -> Result<(), AllocError> {
    let metadata = BaggageMetadata::new(alloc, "n")?;
    lines.answer_of(BaggageMetadata::new(alloc, " m=1 "));
    lines.answer_of(metadata.clone());
    lines.receiver(&metadata);
    Ok(())
}

fn from_key_value<R: Print>(alloc: Global, lines: &Lines<'_, R>) {
    let pair = KeyValue::new(Key::from("k"), Value::I64(7));
    lines.answer_named("k=7", KeyValueMetadata::from_key_value(alloc, pair));
}

fn key_value_metadata<R: Print>(alloc: Global, lines: &Lines<'_, R>) -> Result<(), AllocError> {
    let text = StringValue::from(String::from_str(alloc, "v")?);
    let triple = KeyValueMetadata::new(Key::from("k"), text, BaggageMetadata::default());
    lines.answer_named("a copy", triple.clone());
    Ok(())
}

/// Inserts a new key, with metadata or without.
fn insert_key(held: &mut Baggage, key: &'static str, has_metadata: bool) -> Result<(), AllocError> {
    let value = StringValue::from("v");
    if has_metadata {
        let metadata = BaggageMetadata::default();
        let _ = held.insert_with_metadata(Key::from(key), value, metadata)?;
    } else {
        let _ = held.insert(Key::from(key), value)?;
    }
    Ok(())
}

/// Inserts the keys in turn until an insert fails. Returns the number of present keys, and the
/// error.
fn inserted(held: &mut Baggage, has_metadata: bool) -> (usize, Result<usize, AllocError>) {
    for count in 0..KEYS.len() {
        if let Err(error) = insert_key(held, KEYS[count], has_metadata) {
            return (count, Err(error));
        }
    }
    (KEYS.len(), Ok(KEYS.len()))
}

/// Whether the first `count` of the keys are present, and nothing else.
fn is_beginning(held: &Baggage, count: usize) -> bool {
    for place in 0..KEYS.len() {
        if held.get(KEYS[place]).is_some() != (place < count) {
            return false;
        }
    }
    held.len() == count
}

fn insert<R: Print>(alloc: Global, lines: &Lines<'_, R>, has_metadata: bool) {
    let mut held = Baggage::new(alloc);
    let (count, answer) = inserted(&mut held, has_metadata);
    lines.answer_of(answer);
    lines.due(is_beginning(&held, count));
}

/// The pairs `a=1`, `a b=2` and `c=3`.
fn pairs(alloc: Global) -> Result<Vec<(Key, (StringValue, BaggageMetadata))>, AllocError> {
    let mut pairs = Vec::new(alloc);
    for (key, value) in [("a", "1"), ("a b", "2"), ("c", "3")] {
        let value = (StringValue::from(value), BaggageMetadata::default());
        pairs.push((Key::from(key), value))?;
    }
    Ok(pairs)
}

fn from_pairs<R: Print>(alloc: Global, lines: &Lines<'_, R>) -> Result<(), AllocError> {
    let pairs = pairs(alloc)?;
    lines.answer_of(Baggage::from_pairs(alloc, pairs));
    Ok(())
}

/// The attributes `a=1`, `b=2` and `a=3`.
fn key_values(alloc: Global) -> Result<Vec<KeyValue>, AllocError> {
    let mut pairs = Vec::new(alloc);
    for (key, number) in [("a", 1), ("b", 2), ("a", 3)] {
        pairs.push(KeyValue::new(Key::from(key), Value::I64(number)))?;
    }
    Ok(pairs)
}

fn from_key_values<R: Print>(alloc: Global, lines: &Lines<'_, R>) -> Result<(), AllocError> {
    let pairs = key_values(alloc)?;
    lines.answer_of(Baggage::from_key_values(alloc, pairs));
    Ok(())
}

/// The triples `foo=1` and `bar=2` with the metadata `red;state=on`.
fn triples(alloc: Global) -> Result<Vec<KeyValueMetadata>, AllocError> {
    let mut triples = Vec::new(alloc);
    for (key, value) in [("foo", "1"), ("bar", "2")] {
        let metadata = BaggageMetadata::new(alloc, "red;state=on")?;
        triples.push(KeyValueMetadata::new(Key::from(key), StringValue::from(value), metadata))?;
    }
    Ok(triples)
}

fn from_key_values_with_metadata<R: Print>(
    alloc: Global,
    lines: &Lines<'_, R>,
) -> Result<(), AllocError> {
    let triples = triples(alloc)?;
    lines.answer_of(Baggage::from_key_values_with_metadata(alloc, triples));
    Ok(())
}

/// Inserts the value `w` without allocating. Prints whether this was the old value.
fn replaced<R: Print>(lines: &Lines<'_, R>, held: &mut Baggage, key: &'static str, old: &str) {
    match held.insert(Key::from(key), StringValue::from("w")) {
        Ok(gone) => lines.free("Baggage::insert", &(text_of(&gone) == old)),
        Err(error) => lines.free("Baggage::insert", &error),
    }
}

/// The value's text, or the empty one.
fn text_of(value: &Option<StringValue>) -> &str {
    match value {
        Some(value) => value.as_str(),
        None => "",
    }
}

/// Inserts that don't allocate, a replacement and a key that isn't accepted, look-ups and a
/// removal.
fn in_place<R: Print>(alloc: Global, lines: &Lines<'_, R>) -> Result<(), AllocError> {
    let mut held = Baggage::new(alloc);
    insert_key(&mut held, "k", false)?;
    replaced(lines, &mut held, "k", "v");
    replaced(lines, &mut held, "a b", "");
    looked_at(lines, &held);
    removed(lines, &mut held);
    Ok(())
}

fn looked_at<R: Print>(lines: &Lines<'_, R>, held: &Baggage) {
    lines.free("Baggage::get", &held.get("k").is_some());
    lines.free(
        "Baggage::get_with_metadata",
        &held.get_with_metadata("j").is_some(),
    );
    lines.free("Baggage::iter", &held.iter().count());
    lines.free("Baggage::fmt", held);
}

fn removed<R: Print>(lines: &Lines<'_, R>, held: &mut Baggage) {
    lines.free("Baggage::remove", &held.remove("k").is_some());
    lines.free("Baggage::len", &held.len());
    lines.free("Baggage::is_empty", &held.is_empty());
}
