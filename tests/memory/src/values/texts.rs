//! Calls on texts, values and value trees.
use crate::lines::Lines;
use crate::shown::{Show, answer_shown};
use otel_base::{AnyValue, Array, Key, KeyValue, StringValue, Value};
use std::alloc::{AllocError, Global};
use std::cmp::Ordering;
use std::hash::{DefaultHasher, Hash, Hasher};
use std::rc::RcStr;

pub fn play<R: Print>(alloc: Global, lines: &Lines<'_, R>) {
    if lines.begin("text-clone") {
        lines.end(text_clone(alloc, lines));
    }
    if lines.begin("text-clone-static") {
        text_clone_static(lines);
    }
    if lines.begin("text-clone-shared") {
        lines.end(text_clone_shared(alloc, lines));
    }
    if lines.begin("text-compared") {
        compared(lines, &Key::from("a"), &Key::from("b"));
    }
    if lines.begin("text-into-string") {
        lines.answer_of(Key::from_static_str("k").into_string(alloc));
        lines.answer_of(StringValue::from("v").into_string(alloc));
    }
    if lines.begin("value-text") {
        value_text(alloc, lines);
    }
    if lines.begin("value-clone") {
        lines.end(value_clone(alloc, lines));
    }
    play_trees(alloc, lines);
}

fn play_trees<R: Print>(alloc: Global, lines: &Lines<'_, R>) {
    if lines.begin("tree-list") {
        lines.end(tree_list(alloc, lines));
    }
    if lines.begin("tree-map") {
        lines.end(tree_map(alloc, lines));
    }
    if lines.begin("tree-bytes") {
        answer_shown(lines, AnyValue::bytes(alloc, &[1, 2]));
    }
    if lines.begin("tree-clone") {
        lines.end(tree_clone(alloc, lines));
    }
}

fn clone_key<R: Print>(lines: &Lines<'_, R>, key: &Key) {
    lines.answer_of(key.clone());
    lines.receiver(key);
}

fn clone_text<R: Print>(lines: &Lines<'_, R>, text: &StringValue) {
    lines.answer_of(text.clone());
    lines.receiver(text);
}

/// The clone of an owned text allocates.
fn text_clone<R: Print>(alloc: Global, lines: &Lines<'_, R>) -> Result<(), AllocError> {
    let key = String::from_str(alloc, "k")?;
    let text = String::from_str(alloc, "v")?;
    clone_key(lines, &Key::new(key));
    clone_text(lines, &StringValue::from(text));
    Ok(())
}

/// The clone of a key whose text is static or shared.
fn free_key<R: Print>(lines: &Lines<'_, R>, key: &Key) {
    lines.free_of("Key::clone", key.clone());
    lines.free("Key::as_str", &key.as_str());
}

/// The clone of a static or shared text.
fn free_text<R: Print>(lines: &Lines<'_, R>, text: &StringValue) {
    lines.free_of("StringValue::clone", text.clone());
    lines.free("StringValue::as_str", &text.as_str());
}

fn text_clone_static<R: Print>(lines: &Lines<'_, R>) {
    free_key(lines, &Key::from_static_str("static"));
    free_text(lines, &StringValue::from("static"));
}

fn text_clone_shared<R: Print>(alloc: Global, lines: &Lines<'_, R>) -> Result<(), AllocError> {
    let text = RcStr::from_str(alloc, "shared")?;
    let shared = text.clone()?;
    free_key(lines, &Key::from(shared));
    free_text(lines, &StringValue::from(text));
    Ok(())
}

/// The hash of a key.
fn hash_of(key: &Key) -> u64 {
    let mut state = DefaultHasher::new();
    key.hash(&mut state);
    state.finish()
}

fn compared<R: Print>(lines: &Lines<'_, R>, key: &Key, other: &Key) {
    lines.free("Key::eq", &(*key == *other));
    lines.free("Key::cmp", &(key.cmp(other) == Ordering::Less));
    lines.free("Key::hash", &(hash_of(key) == hash_of(key)));
}

fn value_text<R: Print>(alloc: Global, lines: &Lines<'_, R>) {
    lines.answer_of(StringValue::from_value(alloc, Value::I64(7)));
    text_of(alloc, lines, &Value::I64(-1));
    lines.free_of("Value::as_str", Value::from("v").as_str(alloc));
}

fn text_of<R: Print>(alloc: Global, lines: &Lines<'_, R>, value: &Value) {
    lines.answer_of(value.as_str(alloc));
    lines.receiver(value);
}

/// The list with the texts `a` and `b`.
fn texts(alloc: Global) -> Result<Array, AllocError> {
    let texts = vec![in alloc; StringValue::from("a"), StringValue::from("b")]?;
    Ok(Array::from(texts))
}

fn value_clone<R: Print>(alloc: Global, lines: &Lines<'_, R>) -> Result<(), AllocError> {
    let texts = texts(alloc)?;
    lines.answer_of(texts.clone());
    pair_clone(lines, &KeyValue::new(Key::from("k"), Value::Array(texts)));
    Ok(())
}

fn pair_clone<R: Print>(lines: &Lines<'_, R>, pair: &KeyValue) {
    lines.answer_of(pair.value.clone());
    answer_shown(lines, pair.clone());
    lines.receiver(&pair.value);
    lines.free("Value::eq", &is_true(&pair.value));
}

fn is_true(value: &Value) -> bool {
    *value == Value::Bool(true)
}

fn tree_list<R: Print>(alloc: Global, lines: &Lines<'_, R>) -> Result<(), AllocError> {
    let values = vec![in alloc; AnyValue::Int(1), AnyValue::from("b")]?;
    answer_shown(lines, AnyValue::list(alloc, values));
    Ok(())
}

/// The pairs `a=1`, `b=2` and `a=3`.
fn pairs(alloc: Global) -> Result<Vec<(Key, AnyValue)>, AllocError> {
    let mut pairs = Vec::new(alloc);
    for (key, number) in [("a", 1), ("b", 2), ("a", 3)] {
        pairs.push((Key::from(key), AnyValue::Int(number)))?;
    }
    Ok(pairs)
}

fn tree_map<R: Print>(alloc: Global, lines: &Lines<'_, R>) -> Result<(), AllocError> {
    let pairs = pairs(alloc)?;
    answer_shown(lines, AnyValue::map(alloc, pairs));
    Ok(())
}

/// The list with a number and this map.
fn nested(alloc: Global) -> Result<AnyValue, AllocError> {
    let pairs = pairs(alloc)?;
    let map = AnyValue::map(alloc, pairs)?;
    let values = vec![in alloc; AnyValue::Int(1), map]?;
    AnyValue::list(alloc, values)
}

fn tree_clone<R: Print>(alloc: Global, lines: &Lines<'_, R>) -> Result<(), AllocError> {
    let tree = nested(alloc)?;
    lines.cloned(&tree);
    lines.free("AnyValue::eq", &is_one(&tree));
    lines.receiver(&Show(&tree));
    Ok(())
}

fn is_one(tree: &AnyValue) -> bool {
    *tree == AnyValue::Int(1)
}
