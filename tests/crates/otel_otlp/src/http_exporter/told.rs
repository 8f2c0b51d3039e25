//! A client that answers from a table, and the clock and the random source of an exporter.
ghost use Rattle.std.specs.Prelude.{flat_map};

use http::{HeaderMap, Request, Response};
use otel_otlp::{HttpClient, HttpError};
use otel_sdk_base::{Accepted, Clock};
use std::alloc::{AllocError, Global};
use std::cell::Cell;
use std::io;
use std::random::RandomSource;

/// An answer of the client.
#[derive(Clone, Copy, Debug)]
pub enum Reply {
    /// A status, a value of `Retry-After`, and a body.
    Response(u16, Option<&'static str>, &'static str),
    /// No response.
    Nothing,
    /// The error of the system with this number.
    Refused(i32),
    /// No HTTP.
    Malformed,
}

/// Answers from a list in order, and then with 200. Keeps the target, the headers and the body of
/// each request.
#[derive(Drop)]
pub struct Told {
    alloc: Global,
    replies: Vec<Reply>,
    pub targets: Vec<String>,
    pub headers: Vec<String>,
    pub bodies: Vec<Vec<u8>>,
    sent: Accepted<Request<Vec<u8>>>,
}

/// Returns a client with these answers.
pub fn told(alloc: Global, replies: &[Reply]) -> Result<Told, AllocError> {
    Ok(Told {
        alloc,
        replies: Vec::from_slice(alloc, replies)?,
        targets: Vec::new(alloc),
        headers: Vec::new(alloc),
        bodies: Vec::new(alloc),
        sent: Accepted::new(),
    })
}

// Returns the names and values of the headers, with a comma after each.
fn header_text(alloc: Global, headers: &HeaderMap) -> Result<String, AllocError> {
    let mut text = String::new(alloc);
    for (name, value) in headers.iter() {
        text.push_str(name.as_str())?;
        text.push('=')?;
        text.push_str(value.to_str().unwrap_or("?"))?;
        text.push(',')?;
    }
    Ok(text)
}

// Returns the response of this reply.
fn response(alloc: Global, reply: &Reply) -> Result<Response<Vec<u8>>, HttpError> {
    let (status, wait, body) = match reply {
        Reply::Response(status, wait, body) => (*status, *wait, *body),
        Reply::Nothing => return Err(HttpError::Unreachable),
        Reply::Refused(code) => return Err(HttpError::Io(io::Error::from_raw_os_error(*code))),
        Reply::Malformed => return Err(HttpError::Malformed),
    };
    let body = Vec::from_slice(alloc, body.as_bytes()).map_err(HttpError::Memory)?;
    let mut builder = Response::builder(alloc).status(status);
    if let Some(wait) = wait {
        builder = builder.header("retry-after", wait);
    }
    match builder.body(body) {
        Ok(response) => Ok(response),
        Err(_) => Err(HttpError::Memory(AllocError)),
    }
}

impl Told {
    // Keeps the target, the headers and the body.
    fn keep(&mut self, request: &Request<Vec<u8>>) -> Result<(), AllocError> {
        self.targets
            .push(String::from_str(self.alloc, request.uri().path())?)?;
        self.headers
            .push(header_text(self.alloc, request.headers())?)?;
        self.bodies
            .push(Vec::from_slice(self.alloc, request.body().as_slice())?)?;
        Ok(())
    }
}

impl HttpClient for Told {
    ghost sent = { λ c. flat_map (λ batch. batch) c.sent.batches };

    fn send_bytes(&mut self, request: &Request<Vec<u8>>) -> Result<Response<Vec<u8>>, HttpError> {
        self.sent = self.sent.and_one(request);
        let place = self.bodies.len();
        self.keep(request).map_err(HttpError::Memory)?;
        match self.replies.get(place) {
            Some(reply) => response(self.alloc, reply),
            None => response(self.alloc, &Reply::Response(200, None, "{}")),
        }
    }
}

/// A clock that shows what the cell holds.
#[derive(Drop)]
pub struct Shown<'a> {
    pub moment: &'a Cell<u64>,
}

impl<'a> Clock for Shown<'a> {
    fn now(&self) -> u64 {
        self.moment.get()
    }
}

/// A source whose factor is 1.
#[derive(Drop)]
pub struct Middle;

impl RandomSource for Middle {
    fn fill_bytes(&self, buf: &mut [u8]) -> io::Result<()> {
        buf.fill(0);
        if let Some(first) = buf.first_mut() {
            *first = 200;
        }
        Ok(())
    }
}
