//! The library that the README of the API begins with.
use opentelemetry::trace::{NotEntered, Tracing};

/// Parses a port. Returns `None` if the input isn't one.
pub fn parse_port(tracing: &mut impl Tracing, input: &str) -> Result<Option<u16>, NotEntered> {
    let parse = tracing.enter("parse port")?;
    let port = input.parse().ok();
    tracing.set("port.is_valid", port.is_some())?;
    tracing.exit(parse);
    Ok(port)
}
