//! Rows on maps of texts as carriers.
use crate::fault::Fault;
use crate::row::Answer;
use crate::token::Token;
use opentelemetry::propagation::{Extractor, Injector, PropagationError};
use std::alloc::Global;
use std::collections::HashMap;

pub type Carrier = HashMap<String, String>;

/// The number of keys, and the keys in sorted order.
fn keys(alloc: Global, carrier: &Carrier) -> Result<Answer, Fault> {
    let keys = Extractor::keys(carrier, alloc)?;
    let mut answer = Answer::new(alloc);
    answer.word(keys.len())?;
    for key in &keys {
        answer.text(key)?;
    }
    Ok(answer)
}

/// Acts on the carrier.
pub fn act(
    alloc: Global,
    carrier: &mut Carrier,
    call: &str,
    arguments: &[Token],
) -> Result<Answer, Fault> {
    let mut answer = Answer::new(alloc);
    match (call, arguments) {
        ("set", [Token::Text(key), Token::Text(value)]) => {
            match Injector::set(carrier, key, value.clone()?) {
                Ok(()) => answer.word("ok")?,
                Err(PropagationError::Refused) => answer.word("refused")?,
                Err(PropagationError::Memory(_)) => return Err(Fault::Memory),
            }
        }
        ("insert", [Token::Text(key), Token::Text(value)]) => {
            let old = carrier.insert(key.clone()?, value.clone()?)?;
            answer.option(old.as_ref().map(|old| old.as_str()))?
        }
        ("get", [Token::Text(key)]) => {
            answer.option(Extractor::get(&*carrier, alloc, key)?)?
        }
        ("keys", []) => return keys(alloc, carrier),
        ("set" | "insert" | "get" | "keys", _) => return Err(Fault::Arguments),
        _ => return Err(Fault::UnknownCall),
    }
    Ok(answer)
}
