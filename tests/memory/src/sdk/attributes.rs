//! Lists of attributes under limits.
use crate::lines::Lines;
use crate::sdk::attribute;
use opentelemetry::{Key, KeyValue, StringValue, Value};
use otel_sdk_base::attributes::{limited, put, put_all, set};
use otel_sdk_base::cutting::{cut, cut_text};
use std::alloc::{AllocError, Global};

pub fn play<R: Print>(alloc: Global, lines: &Lines<'_, R>) {
    if lines.begin("attributes-put") {
        let mut held = Vec::new(alloc);
        let answer = put(&mut held, attribute());
        lines.answer_of(answer.map(|()| held.len()));
    }
    if lines.begin("attributes-put-all") {
        lines.end(all(alloc, lines));
    }
    if lines.begin("attributes-set") {
        let mut held = Vec::new(alloc);
        let answer = set(&mut held, 1, attribute());
        lines.answer_named("set", answer.map(|_| ()));
    }
    if lines.begin("attributes-limited") {
        lines.end(within(alloc, lines));
    }
    if lines.begin("attributes-cut") {
        lines.end(short(alloc, lines));
    }
    if lines.begin("attributes-cut-text") {
        let answer = cut_text(alloc, 2, StringValue::from("value"));
        lines.answer_named("cut", answer.map(|_| ()));
    }
}

fn given(alloc: Global) -> Result<Vec<KeyValue>, AllocError> {
    Ok(vec![in alloc;
        attribute(),
        KeyValue::new(Key::from("l"), Value::from("v")),
    ]?)
}

fn all<R: Print>(alloc: Global, lines: &Lines<'_, R>) -> Result<(), AllocError> {
    let (given, mut held) = (given(alloc)?, Vec::new(alloc));
    let answer = put_all(&mut held, given);
    lines.answer_of(answer.map(|()| held.len()));
    Ok(())
}

fn within<R: Print>(alloc: Global, lines: &Lines<'_, R>) -> Result<(), AllocError> {
    let answer = limited(alloc, 1, None, given(alloc)?, 0);
    lines.answer_of(answer.map(|(kept, _)| kept.len()));
    Ok(())
}

fn short<R: Print>(alloc: Global, lines: &Lines<'_, R>) -> Result<(), AllocError> {
    let text = KeyValue::new(Key::from("k"), Value::from("value"));
    let answer = cut(alloc, Some(2), text);
    lines.answer_named("cut", answer.map(|_| ()));
    Ok(())
}
