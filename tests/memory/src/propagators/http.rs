//! Calls on HTTP headers as carriers.
use crate::lines::Lines;
use http_header::{HeaderMap, HeaderName, HeaderValue};
use opentelemetry::propagation::{Extractor, Injector};
use otel_http::{HeaderExtractor, HeaderInjector, add_header_line};
use std::alloc::{AllocError, Global};

pub fn play<R: Print>(alloc: Global, lines: &Lines<'_, R>) {
    if lines.begin("header-extractor-new") {
        lines.end(extractor_new(alloc, lines));
    }
    if lines.begin("header-extractor-looks") {
        lines.end(looks(alloc, lines));
    }
    if lines.begin("header-injector-set") {
        lines.end(set(alloc, lines));
    }
    if lines.begin("header-line-add") {
        lines.end(add_line(alloc, lines));
    }
}

/// Headers with a trace state on two lines.
fn headers(alloc: Global) -> Result<HeaderMap, AllocError> {
    let mut headers = HeaderMap::new(alloc);
    for value in ["a=1", "b=2"] {
        let name = HeaderName::from_static("tracestate");
        match headers.append(name, HeaderValue::from_static(value)) {
            Ok(_) => (),
            Err(_) => return Err(AllocError),
        }
    }
    Ok(headers)
}

fn extractor_new<R: Print>(alloc: Global, lines: &Lines<'_, R>) -> Result<(), AllocError> {
    let headers = headers(alloc)?;
    lines.answer_named("made", HeaderExtractor::new(alloc, &headers));
    lines.due(is_due(&headers, 1));
    Ok(())
}

fn looks<R: Print>(alloc: Global, lines: &Lines<'_, R>) -> Result<(), AllocError> {
    let extractor = HeaderExtractor::new(alloc, &headers(alloc)?)?;
    match extractor.get(alloc, "TraceState") {
        Ok(value) => lines.answer(&value.unwrap_or("none")),
        Err(error) => lines.answer(&error),
    }
    match extractor.keys(alloc) {
        Ok(keys) => lines.answer(&keys.len()),
        Err(error) => lines.answer(&error),
    }
    Ok(())
}

/// Whether the headers have this many names: both lines of the trace state, then `x-id`.
fn is_due(headers: &HeaderMap, names: usize) -> bool {
    let has_id = match headers.get("x-id") {
        Some(id) => id.as_bytes() == b"1".as_slice(),
        None => false,
    };
    headers.get_all("tracestate").iter().count() == 2
        && headers.keys_len() == names
        && has_id == (names == 2)
}

fn set<R: Print>(alloc: Global, lines: &Lines<'_, R>) -> Result<(), AllocError> {
    let mut injector = HeaderInjector::new(headers(alloc)?);
    let value = String::from_str(alloc, "1")?;
    let answer = injector.set("X-Id", value);
    let names = if answer.is_ok() { 2 } else { 1 };
    lines.answer_named("set", answer);
    lines.due(is_due(&injector.into_headers(), names));
    Ok(())
}

fn add_line<R: Print>(alloc: Global, lines: &Lines<'_, R>) -> Result<(), AllocError> {
    let mut headers = headers(alloc)?;
    let answer = add_header_line(alloc, &mut headers, "X-Id: 1");
    let names = if answer.is_ok() { 2 } else { 1 };
    lines.answer_named("added", answer.map_err(|_| AllocError));
    lines.due(is_due(&headers, names));
    Ok(())
}
