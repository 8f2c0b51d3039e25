//! Rows on baggage and its metadata.
use crate::fault::{Fault, agrees};
use crate::row::{Answer, one_text};
use crate::token::Token;
use opentelemetry::baggage::{Baggage, BaggageMetadata, KeyValueMetadata};
use opentelemetry::{Key, KeyValue, StringValue, Value};
use std::alloc::{AllocError, Global};

/// The text of metadata made from this text.
pub fn metadata(alloc: Global, arguments: &[Token]) -> Result<Answer, Fault> {
    let metadata = BaggageMetadata::new(alloc, one_text(arguments)?)?;
    let printed = metadata.to_string(alloc)?;
    agrees(printed.as_str() == metadata.as_str(), "the text")?;
    Ok(Answer::of_text(alloc, metadata.as_str())?)
}

/// The printed text of a new baggage, and the baggage.
pub type Made = (Answer, Baggage);

fn printed(alloc: Global, baggage: Baggage) -> Result<Made, AllocError> {
    Ok((Answer::of_text(alloc, &baggage.to_string(alloc)?)?, baggage))
}

/// The baggage with the pairs `KEY=VALUE`.
pub fn from_key_values(alloc: Global, arguments: &[Token]) -> Result<Made, Fault> {
    let mut pairs = Vec::new(alloc);
    for pair in arguments.chunks(3) {
        let [Token::Text(key), Token::Equals, Token::Text(value)] = pair else {
            return Err(Fault::Arguments);
        };
        pairs.push(KeyValue::new(Key::new(key.clone()?), Value::from(value.clone()?)))?;
    }
    Ok(printed(alloc, Baggage::from_key_values(alloc, pairs)?)?)
}

/// The baggage with the entries `KEY=VALUE METADATA`.
pub fn from_key_values_with_metadata(alloc: Global, arguments: &[Token]) -> Result<Made, Fault> {
    let mut entries = Vec::new(alloc);
    for entry in arguments.chunks(4) {
        let [
            Token::Text(key),
            Token::Equals,
            Token::Text(value),
            Token::Text(metadata),
        ] = entry
        else {
            return Err(Fault::Arguments);
        };
        entries.push(KeyValueMetadata::new(
            Key::new(key.clone()?),
            StringValue::from(value.clone()?),
            BaggageMetadata::new(alloc, metadata)?,
        ))?;
    }
    Ok(printed(
        alloc,
        Baggage::from_key_values_with_metadata(alloc, entries)?,
    )?)
}

/// `some` with the value and the metadata, or `none`.
fn pair(
    alloc: Global,
    pair: Option<&(StringValue, BaggageMetadata)>,
) -> Result<Answer, AllocError> {
    let mut answer = Answer::new(alloc);
    answer.option(pair.map(|pair| pair.0.as_str()))?;
    if let Some((_, metadata)) = pair {
        answer.text(metadata.as_str())?;
    }
    Ok(answer)
}

/// Acts on the baggage.
pub fn act(
    alloc: Global,
    baggage: &mut Baggage,
    call: &str,
    arguments: &[Token],
) -> Result<Answer, Fault> {
    match (call, arguments) {
        ("insert", [Token::Text(key), Token::Text(value)]) => {
            let old = baggage.insert(Key::new(key.clone()?), StringValue::from(value.clone()?))?;
            let mut answer = Answer::new(alloc);
            answer.option(old.as_ref().map(|old| old.as_str()))?;
            Ok(answer)
        }
        ("insert_with_metadata", [Token::Text(key), Token::Text(value), Token::Text(metadata)]) => {
            let old = baggage.insert_with_metadata(
                Key::new(key.clone()?),
                StringValue::from(value.clone()?),
                BaggageMetadata::new(alloc, metadata)?,
            )?;
            Ok(pair(alloc, old.as_ref())?)
        }
        ("remove", [Token::Text(key)]) => {
            let old = baggage.remove(key);
            Ok(pair(alloc, old.as_ref())?)
        }
        ("insert" | "insert_with_metadata" | "remove", _) => Err(Fault::Arguments),
        _ => asked(alloc, baggage, call, arguments),
    }
}

fn asked(
    alloc: Global,
    baggage: &Baggage,
    call: &str,
    arguments: &[Token],
) -> Result<Answer, Fault> {
    match (call, arguments) {
        ("get_with_metadata", [Token::Text(key)]) => {
            let found = baggage.get_with_metadata(key);
            let value = baggage.get(key).map(|value| value.as_str());
            agrees(value == found.map(|found| found.0.as_str()), "the value")?;
            Ok(pair(alloc, found)?)
        }
        ("to_string", []) => Ok(Answer::of_text(alloc, &baggage.to_string(alloc)?)?),
        ("len", []) => {
            agrees(baggage.is_empty() == (baggage.len() == 0), "emptiness")?;
            let mut answer = Answer::new(alloc);
            answer.word(baggage.len())?;
            Ok(answer)
        }
        ("iter", []) => pairs(alloc, baggage),
        ("get_with_metadata" | "to_string" | "len" | "iter", _) => Err(Fault::Arguments),
        _ => Err(Fault::UnknownCall),
    }
}

/// The number of pairs, and the key, value and metadata of each.
fn pairs(alloc: Global, baggage: &Baggage) -> Result<Answer, Fault> {
    let mut answer = Answer::new(alloc);
    answer.word(baggage.iter().count())?;
    for (key, (value, metadata)) in baggage {
        answer.text(key.as_str())?;
        answer.text(value.as_str())?;
        answer.text(metadata.as_str())?;
    }
    Ok(answer)
}
