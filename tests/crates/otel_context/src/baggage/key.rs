//! The texts that are keys.
use otel_base::{Key, StringValue};
use otel_context::baggage::Baggage;
use std::test::Fail;

/// The characters of a token besides letters and digits, as listed by RFC 7230, section 3.2.6
/// (`tchar`).
const TOKEN_MARKS: &[u8] = b"!#$%&'*+-.^_`|~";

#[test]
fn keys_are_tokens(rt: HostRuntime) -> Result<(), Fail> {
    for byte in 0..128u8 {
        let mut baggage = Baggage::new(rt.alloc());
        let mut key = String::new(rt.alloc());
        key.push(char::from(byte))?;
        drop(baggage.insert(Key::from(key), StringValue::from("1"))?);
        let is_token = byte.is_ascii_alphanumeric() || TOKEN_MARKS.contains(&byte);
        assert_eq!(rt; !baggage.is_empty(), is_token, "byte {byte}");
    }
    Ok(())
}
