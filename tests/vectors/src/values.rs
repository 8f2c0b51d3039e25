//! Rows on values and severities.
use crate::fault::{Fault, agrees};
use crate::row::{Answer, one_text, one_word, word_of};
use crate::token::Token;
use opentelemetry::logs::Severity;
use opentelemetry::{Array, StringValue, Value};
use std::alloc::Global;

const SEVERITIES: [Severity; 24] = [
    Severity::Trace,
    Severity::Trace2,
    Severity::Trace3,
    Severity::Trace4,
    Severity::Debug,
    Severity::Debug2,
    Severity::Debug3,
    Severity::Debug4,
    Severity::Info,
    Severity::Info2,
    Severity::Info3,
    Severity::Info4,
    Severity::Warn,
    Severity::Warn2,
    Severity::Warn3,
    Severity::Warn4,
    Severity::Error,
    Severity::Error2,
    Severity::Error3,
    Severity::Error4,
    Severity::Fatal,
    Severity::Fatal2,
    Severity::Fatal3,
    Severity::Fatal4,
];

fn truths(alloc: Global, items: &[Token]) -> Result<Value, Fault> {
    let mut list: Vec<bool> = Vec::new(alloc);
    for item in items {
        list.push(word_of(item)?)?;
    }
    Ok(Value::Array(Array::from(list)))
}

fn numbers(alloc: Global, items: &[Token]) -> Result<Value, Fault> {
    let mut list: Vec<i64> = Vec::new(alloc);
    for item in items {
        list.push(word_of(item)?)?;
    }
    Ok(Value::Array(Array::from(list)))
}

fn texts(alloc: Global, items: &[Token]) -> Result<Value, Fault> {
    let mut list = Vec::new(alloc);
    for item in items {
        let Token::Text(text) = item else {
            return Err(Fault::Arguments);
        };
        list.push(StringValue::from(text.clone()?))?;
    }
    Ok(Value::Array(Array::from(list)))
}

fn text(alloc: Global, arguments: &[Token]) -> Result<Value, Fault> {
    let text = String::from_str(alloc, one_text(arguments)?)?;
    Ok(Value::from(text))
}

/// The printed text of the value.
pub fn printed(alloc: Global, call: &str, arguments: &[Token]) -> Result<Answer, Fault> {
    let value = match call {
        "Value::Bool" => Value::from(one_word::<bool>(arguments)?),
        "Value::I64" => Value::from(one_word::<i64>(arguments)?),
        "Value::String" => text(alloc, arguments)?,
        "Array::Bool" => truths(alloc, arguments)?,
        "Array::I64" => numbers(alloc, arguments)?,
        "Array::String" => texts(alloc, arguments)?,
        _ => return Err(Fault::UnknownCall),
    };
    let printed = value.to_string(alloc)?;
    agrees(
        value.as_str(alloc)?.as_str() == printed.as_str(),
        "the text",
    )?;
    agrees(value.clone()? == value, "a clone")?;
    let held = StringValue::from_value(alloc, value)?;
    agrees(held.as_str() == printed.as_str(), "the value's text")?;
    Ok(Answer::of_text(alloc, &printed)?)
}

/// The name of the severity with this number.
pub fn severity_name(alloc: Global, arguments: &[Token]) -> Result<Answer, Fault> {
    let number: u8 = one_word(arguments)?;
    for severity in &SEVERITIES {
        agrees(severity.number() == *severity as u8, "the number")?;
        if severity.number() == number {
            return Ok(Answer::of_text(alloc, severity.name())?);
        }
    }
    Err(Fault::Arguments)
}
