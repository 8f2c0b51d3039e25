//! Rows on ids and flags.
use crate::fault::{Fault, agrees};
use crate::row::{Answer, one_text, one_word};
use crate::token::Token;
use opentelemetry::{SpanId, TraceFlags, TraceId};
use std::alloc::Global;
use std::num::{IntErrorKind, ParseIntError};

fn word_of(error: &ParseIntError) -> &'static str {
    match error.kind() {
        IntErrorKind::Empty => "empty",
        IntErrorKind::InvalidDigit => "digit",
        IntErrorKind::PosOverflow => "overflow",
        IntErrorKind::NegOverflow => "negative",
        IntErrorKind::Zero => "zero",
    }
}

/// `ok` with the texts of `{}` and `{:x}`, or `err` with the kind of the error.
fn answer(alloc: Global, texts: Result<(String, String), ParseIntError>) -> Result<Answer, Fault> {
    let mut answer = Answer::new(alloc);
    match texts {
        Ok((padded, plain)) => {
            answer.word("ok")?;
            answer.text(&padded)?;
            answer.text(&plain)?;
        }
        Err(error) => {
            answer.word("err")?;
            answer.word(word_of(&error))?;
        }
    }
    Ok(answer)
}

fn trace_id(alloc: Global, read: Result<TraceId, ParseIntError>) -> Result<Answer, Fault> {
    match read {
        Ok(id) => {
            agrees(TraceId::from_bytes(id.to_bytes()) == id, "the bytes")?;
            answer(
                alloc,
                Ok((id.to_string(alloc)?, format!(in alloc; "{id:x}")?)),
            )
        }
        Err(error) => answer(alloc, Err(error)),
    }
}

fn span_id(alloc: Global, read: Result<SpanId, ParseIntError>) -> Result<Answer, Fault> {
    match read {
        Ok(id) => {
            agrees(SpanId::from_bytes(id.to_bytes()) == id, "the bytes")?;
            answer(
                alloc,
                Ok((id.to_string(alloc)?, format!(in alloc; "{id:x}")?)),
            )
        }
        Err(error) => answer(alloc, Err(error)),
    }
}

pub fn trace_id_from_hex(alloc: Global, arguments: &[Token]) -> Result<Answer, Fault> {
    trace_id(alloc, TraceId::from_hex(one_text(arguments)?))
}

pub fn trace_id_from(alloc: Global, arguments: &[Token]) -> Result<Answer, Fault> {
    let number: u128 = one_word(arguments)?;
    let id = TraceId::from(number);
    agrees(id.to_bytes() == number.to_be_bytes(), "the bytes")?;
    trace_id(alloc, Ok(id))
}

pub fn span_id_from_hex(alloc: Global, arguments: &[Token]) -> Result<Answer, Fault> {
    span_id(alloc, SpanId::from_hex(one_text(arguments)?))
}

pub fn span_id_from(alloc: Global, arguments: &[Token]) -> Result<Answer, Fault> {
    let number: u64 = one_word(arguments)?;
    let id = SpanId::from(number);
    agrees(id.to_bytes() == number.to_be_bytes(), "the bytes")?;
    span_id(alloc, Ok(id))
}

/// The text of `{:x}`, whether they are sampled, and the bytes of `with_sampled` and of `!`.
pub fn flags(alloc: Global, arguments: &[Token]) -> Result<Answer, Fault> {
    let byte: u8 = one_word(arguments)?;
    let flags = TraceFlags::new(byte);
    agrees(flags.to_u8() == byte, "the byte")?;
    let mut answer = Answer::new(alloc);
    answer.text(&format!(in alloc; "{flags:x}")?)?;
    answer.word("sampled")?;
    answer.word(flags.is_sampled())?;
    answer.word("set")?;
    answer.word(flags.with_sampled(true).to_u8())?;
    answer.word("cleared")?;
    answer.word(flags.with_sampled(false).to_u8())?;
    answer.word("not")?;
    answer.word((!flags).to_u8())?;
    Ok(answer)
}
