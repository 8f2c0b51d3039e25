//! Calls that write values in Protocol Buffers, and that read a collector's answers.
use crate::lines::Lines;
use otel_base::{AnyValue, Key, KeyValue, Value};
use otel_proto::{
    Output, any_value_bytes, key_value_list_bytes, put_attributes, put_bytes,
    put_bytes_unless_empty, put_entry, put_fixed32, put_fixed32_unless_zero,
    put_fixed64_unless_zero, put_head, put_number, put_number_unless_zero, put_text_unless_empty,
    put_value,
};
use otel_proto_answers::{read_partial, read_status};
use std::alloc::{AllocError, Global};

pub fn play<R: Print>(alloc: Global, lines: &Lines<'_, R>) {
    if lines.begin("proto-value") {
        lines.end(value(alloc, lines));
    }
    if lines.begin("proto-attributes") {
        lines.end(attributes(alloc, lines));
    }
    if lines.begin("proto-output") {
        lines.end(output(alloc, lines));
    }
    if lines.begin("proto-partial") {
        lines.end(partial(alloc, lines));
    }
    if lines.begin("proto-status") {
        lines.end(status(alloc, lines));
    }
}

/// Prints the number of bytes and the last byte, or the error.
fn answer_bytes<R: Print>(lines: &Lines<'_, R>, answer: Result<Vec<u8>, AllocError>) {
    match answer {
        Ok(bytes) => match bytes.last() {
            Some(last) => lines.answer(&(bytes.len() * 1000 + usize::from(*last))),
            None => lines.answer(&0),
        },
        Err(error) => lines.answer(&error),
    }
}

fn value<R: Print>(alloc: Global, lines: &Lines<'_, R>) -> Result<(), AllocError> {
    let pairs = vec![in alloc; (Key::from("k"), AnyValue::Int(7))]?;
    let map = AnyValue::map(alloc, pairs)?;
    answer_bytes(lines, any_value_bytes(alloc, &map));
    Ok(())
}

fn attributes<R: Print>(alloc: Global, lines: &Lines<'_, R>) -> Result<(), AllocError> {
    let pairs = [
        KeyValue::new(Key::from("k"), Value::from(7)),
        KeyValue::new(Key::from("a"), Value::from("b")),
    ];
    answer_bytes(lines, key_value_list_bytes(alloc, &pairs));
    Ok(())
}

/// Fields before each other in one buffer, which is allocated first.
fn output<R: Print>(alloc: Global, lines: &Lines<'_, R>) -> Result<(), AllocError> {
    let mut out = Output::with_size(alloc, 54)?;
    let given = [KeyValue::new(Key::from("k"), Value::from(7))];
    let value = AnyValue::Int(7);
    lines.free_ok("put_number", put_number(&mut out, 1, 300));
    let some = put_number_unless_zero(&mut out, 2, 1);
    lines.free_ok("put_number_unless_zero", some);
    let time = put_fixed64_unless_zero(&mut out, 3, 1);
    lines.free_ok("put_fixed64_unless_zero", time);
    lines.free_ok("put_fixed32", put_fixed32(&mut out, 4, 1));
    let flags = put_fixed32_unless_zero(&mut out, 4, 1);
    lines.free_ok("put_fixed32_unless_zero", flags);
    lines.free_ok("put_bytes", put_bytes(&mut out, 5, b"a"));
    let some = put_bytes_unless_empty(&mut out, 6, b"a");
    lines.free_ok("put_bytes_unless_empty", some);
    let text = put_text_unless_empty(&mut out, 7, "a");
    lines.free_ok("put_text_unless_empty", text);
    lines.free_ok("put_attributes", put_attributes(&mut out, 8, &given));
    lines.free_ok("put_value", put_value(&mut out, &value));
    let entry = put_entry(&mut out, &Key::from("k"), &value);
    lines.free_ok("put_entry", entry);
    let end = out.count();
    lines.free_ok("put_head", put_head(&mut out, 9, end));
    lines.free_ok("Output::put", out.put(b"z"));
    let bytes = out.into_bytes();
    lines.free_ok("Output::into_bytes", bytes);
    Ok(())
}

/// Only a message is allocated.
fn partial<R: Print>(alloc: Global, lines: &Lines<'_, R>) -> Result<(), AllocError> {
    let with_message = read_partial(alloc, b"\x0a\x05\x08\x02\x12\x01m");
    lines.answer_of(with_message.map(|partial| partial.rejected));
    Ok(())
}

fn status<R: Print>(alloc: Global, lines: &Lines<'_, R>) -> Result<(), AllocError> {
    let with_message = read_status(alloc, b"\x08\x03\x12\x03bad");
    lines.answer_of(with_message.map(|status| status.code));
    Ok(())
}
