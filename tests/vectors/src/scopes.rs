//! Rows on instrumentation scopes.
use crate::fault::{Fault, agrees};
use crate::row::Answer;
use crate::token::Token;
use opentelemetry::{InstrumentationScope, Key, KeyValue, StringValue, Value};
use std::alloc::{AllocError, Global};
use std::hash::{DefaultHasher, Hash, Hasher};

fn string_value(text: &String) -> Result<StringValue, AllocError> {
    Ok(StringValue::from(text.clone()?))
}

/// A truth value, a number or a text.
fn value(token: &Token) -> Result<Value, Fault> {
    match token {
        Token::Text(text) => Ok(Value::from(text.clone()?)),
        Token::Word(word) => match (word.parse::<bool>(), word.parse::<i64>()) {
            (Ok(truth), _) => Ok(Value::from(truth)),
            (_, Ok(number)) => Ok(Value::from(number)),
            _ => Err(Fault::Arguments),
        },
        _ => Err(Fault::Arguments),
    }
}

fn attributes(alloc: Global, tokens: &[Token]) -> Result<Vec<KeyValue>, Fault> {
    let mut attributes = Vec::new(alloc);
    for attribute in tokens.chunks(3) {
        let [Token::Text(key), Token::Equals, given] = attribute else {
            return Err(Fault::Arguments);
        };
        attributes.push(KeyValue::new(Key::new(key.clone()?), value(given)?))?;
    }
    Ok(attributes)
}

/// The scope made from `NAME [version TEXT] [schema_url TEXT] [attributes KEY=VALUE..]`.
pub fn scope(alloc: Global, arguments: &[Token]) -> Result<InstrumentationScope, Fault> {
    let [Token::Text(name), parts @ ..] = arguments else {
        return Err(Fault::Arguments);
    };
    let mut builder = InstrumentationScope::builder(string_value(name)?);
    let mut rest = parts;
    loop {
        rest = match rest {
            [] => break,
            [Token::Word(part), given @ ..] if part.as_str() == "attributes" => {
                builder = builder.with_attributes(attributes(alloc, given)?);
                break;
            }
            [Token::Word(part), Token::Text(text), others @ ..] => {
                builder = match part.as_str() {
                    "version" => builder.with_version(string_value(text)?),
                    "schema_url" => builder.with_schema_url(string_value(text)?),
                    _ => return Err(Fault::Arguments),
                };
                others
            }
            _ => return Err(Fault::Arguments),
        };
    }
    Ok(builder.build(alloc)?)
}

fn hash_of(scope: &InstrumentationScope) -> u64 {
    let mut hasher = DefaultHasher::new();
    scope.hash(&mut hasher);
    hasher.finish()
}

/// Whether the scope equals the scope of the arguments; if it does, also whether their hashes are
/// equal.
pub fn act(
    alloc: Global,
    scope: &InstrumentationScope,
    call: &str,
    arguments: &[Token],
) -> Result<Answer, Fault> {
    if call != "equals" {
        return Err(Fault::UnknownCall);
    }
    let other = self::scope(alloc, arguments)?;
    let equals = *scope == other;
    agrees(equals == (other == *scope), "equality")?;
    agrees(scope.clone()? == *scope, "a clone")?;
    let mut answer = Answer::of_word(alloc, "equal")?;
    answer.word(equals)?;
    if equals {
        answer.word("same_hash")?;
        answer.word(hash_of(scope) == hash_of(&other))?;
    }
    Ok(answer)
}
