//! A client over a reader and a writer, and one over files that aren't there.
use crate::lines::Lines;
use crate::sdk::otlp_http::given;
use http::Request;
use otel_otlp::{FileClient, HttpClient, StreamClient, pipe_exporter};
use std::alloc::{AllocError, Global};
use std::hash::RandomState;
use std::io;

pub fn play<R: Print>(rt: HostRuntime, lines: &Lines<'_, R>) {
    let Ok(keys) = RandomState::new(&rt) else {
        return;
    };
    if lines.begin("stream-client-send-bytes") {
        lines.end(send(rt.alloc(), keys, lines));
    }
    if lines.begin("file-client-new") {
        lines.answer_named("made", FileClient::new(rt.alloc(), keys, rt, "/nowhere"));
    }
    if lines.begin("file-client-send-bytes") {
        lines.end(send_to_files(rt, keys, lines));
    }
    if lines.begin("pipe-exporter") {
        let made = pipe_exporter(rt.alloc(), rt, "/nowhere", &given());
        lines.answer_named("made", made);
    }
}

const RESPONSE: &'static [u8] = b"HTTP/1.1 100 Continue\r\n\r\nHTTP/1.1 200 OK\r\nX-Own: 1\r\n\
    Transfer-Encoding: chunked\r\n\r\n3\r\n{\"a\r\n4\r\n\":1}\r\n0\r\n\r\n";

fn request(alloc: Global) -> Result<Request<Vec<u8>>, AllocError> {
    let body = Vec::from_slice(alloc, b"{}")?;
    let made = Request::post(alloc, "http://h/v1/traces?a=b")
        .header("x-own", "1")
        .body(body);
    match made {
        Ok(request) => Ok(request),
        Err(_) => Err(AllocError),
    }
}

/// The whole body was read, and the next request can be sent; after an error none can.
fn send<R: Print>(
    alloc: Global,
    keys: RandomState,
    lines: &Lines<'_, R>,
) -> Result<(), AllocError> {
    let request = request(alloc)?;
    let mut client = StreamClient::new(alloc, keys, RESPONSE, io::sink());
    let sent = client.send_bytes(&request);
    let is_due = sent.is_ok() == client.is_open();
    lines.answer_of(sent.map(|response| response.body().as_slice() == b"{\"a\":1}".as_slice()));
    lines.due(is_due);
    Ok(())
}

fn send_to_files<R: Print>(
    rt: HostRuntime,
    keys: RandomState,
    lines: &Lines<'_, R>,
) -> Result<(), AllocError> {
    let request = request(rt.alloc())?;
    let mut client = FileClient::new(rt.alloc(), keys, rt, "/nowhere")?;
    lines.answer_named("sent", client.send_bytes(&request));
    Ok(())
}
