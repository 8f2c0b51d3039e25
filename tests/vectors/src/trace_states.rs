//! Rows on trace states.
use crate::fault::{Fault, agrees};
use crate::row::{Answer, one_text};
use crate::token::Token;
use opentelemetry::trace::{TraceState, TraceStateError};
use std::alloc::Global;

/// `ok` with the header, or `err` with the case of the error and its text.
fn answer(alloc: Global, made: &Result<TraceState, TraceStateError>) -> Result<Answer, Fault> {
    let mut answer = Answer::new(alloc);
    let (word, text) = match made {
        Ok(state) => {
            answer.word("ok")?;
            answer.text(&state.header(alloc)?)?;
            return Ok(answer);
        }
        Err(TraceStateError::Key(text)) => ("key", text),
        Err(TraceStateError::Value(text)) => ("value", text),
        Err(TraceStateError::List(text)) => ("list", text),
        Err(TraceStateError::Memory(_)) => return Err(Fault::Memory),
    };
    answer.word("err")?;
    answer.word(word)?;
    answer.text(text)?;
    Ok(answer)
}

/// A new state, if there is one, with the answer.
pub type Made = (Answer, Option<TraceState>);

pub fn from_str(alloc: Global, arguments: &[Token]) -> Result<Made, Fault> {
    let made = TraceState::from_str(alloc, one_text(arguments)?);
    Ok((answer(alloc, &made)?, made.ok()))
}

pub fn from_key_value(alloc: Global, arguments: &[Token]) -> Result<Made, Fault> {
    let mut pairs = Vec::new(alloc);
    for pair in arguments.chunks(3) {
        let [Token::Text(key), Token::Equals, Token::Text(value)] = pair else {
            return Err(Fault::Arguments);
        };
        pairs.push((key.as_str(), value.as_str()))?;
    }
    let made = TraceState::from_key_value(alloc, &pairs);
    Ok((answer(alloc, &made)?, made.ok()))
}

/// `some` with the printed error of reading the text, or `none` if the text can be read.
pub fn error_text(alloc: Global, arguments: &[Token]) -> Result<Answer, Fault> {
    let mut answer = Answer::new(alloc);
    match TraceState::from_str(alloc, one_text(arguments)?) {
        Ok(_) => answer.option(None)?,
        Err(error) => answer.option(Some(&error.to_string(alloc)?))?,
    }
    Ok(answer)
}

/// Acts on the state, which is replaced by the new one, if there is one.
pub fn act(
    alloc: Global,
    state: &mut TraceState,
    call: &str,
    arguments: &[Token],
) -> Result<Answer, Fault> {
    let header = state.header(alloc)?;
    let (answer, made) = changed(alloc, state, call, arguments)?;
    agrees(state.header(alloc)? == header, "the old state")?;
    if let Some(made) = made {
        *state = made;
    }
    Ok(answer)
}

fn changed(
    alloc: Global,
    state: &TraceState,
    call: &str,
    arguments: &[Token],
) -> Result<Made, Fault> {
    let made = match (call, arguments) {
        ("insert", [Token::Text(key), Token::Text(value)]) => state.insert(alloc, key, value),
        ("delete", [Token::Text(key)]) => state.delete(alloc, key),
        ("insert" | "delete", _) => return Err(Fault::Arguments),
        _ => return Ok((asked(alloc, state, call, arguments)?, None)),
    };
    Ok((answer(alloc, &made)?, made.ok()))
}

fn asked(
    alloc: Global,
    state: &TraceState,
    call: &str,
    arguments: &[Token],
) -> Result<Answer, Fault> {
    let mut answer = Answer::new(alloc);
    match (call, arguments) {
        ("get", [Token::Text(key)]) => answer.option(state.get(key))?,
        ("header_delimited", [Token::Text(entry), Token::Text(list)]) => {
            answer.text(&state.header_delimited(alloc, entry, list)?)?
        }
        ("len", []) => {
            let len = state.iter().len();
            agrees(state.iter().size_hint() == (len, Some(len)), "the size")?;
            agrees(state.into_iter().count() == len, "the length")?;
            answer.word(len)?
        }
        ("equals_none", []) => answer.word(*state == TraceState::NONE)?,
        ("get" | "header_delimited" | "len" | "equals_none", _) => return Err(Fault::Arguments),
        _ => return Err(Fault::UnknownCall),
    }
    Ok(answer)
}
