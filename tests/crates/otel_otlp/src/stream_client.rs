//! What a client over a reader and a writer sends and reads, byte by byte, and over readers and
//! writers that are slow, interrupted or fail.
mod files;
mod limits;
mod pieces;
mod requests;

use crate::stream_client::pieces::{Given, Taken};
use http::{Request, Response};
use otel_otlp::{HttpClient, HttpError, StreamClient};
use std::alloc::Global;
use std::hash::RandomState;
use std::io::ErrorKind;
use std::process::Abort;
use std::random::RandomSource;
use std::test::Fail;

/// The kind of an error, or the status and the body of a response, and whether another request can
/// be sent.
type Answer = Result<(u16, &'static str, bool), &'static str>;

const OK: &'static str = "HTTP/1.1 200 OK\r\nContent-Length: 2\r\n\r\n{}";

const CHUNKED: &'static str =
    "HTTP/1.1 200 OK\r\nTransfer-Encoding: chunked\r\n\r\n3\r\n{\"a\r\n4;x=y\r\n\":1}\r\n0\r\n\r\n";

const TRAILER: &'static str =
    "HTTP/1.1 200 OK\r\nTransfer-Encoding: chunked\r\n\r\n2\r\n{}\r\n0\r\nX-Sum: 1\r\n\r\n";

/// The bytes that a server sends before it closes the connection, and the answer.
const ANSWERS: [(&'static str, Answer); 27] = [
    (OK, Ok((200, "{}", true))),
    (CHUNKED, Ok((200, "{\"a\":1}", true))),
    (TRAILER, Ok((200, "{}", true))),
    // A body without a length ends with the connection.
    ("HTTP/1.1 200 OK\r\n\r\n{}", Ok((200, "{}", false))),
    ("HTTP/1.1 200 OK\r\n\r\n", Ok((200, "", false))),
    // Responses of status 1xx are skipped.
    (
        "HTTP/1.1 100 Continue\r\n\r\nHTTP/1.1 204 No Content\r\n\r\n",
        Ok((204, "", true)),
    ),
    (
        "HTTP/1.1 103 Early Hints\r\nLink: </a>\r\n\r\nHTTP/1.1 100 C\r\n\r\nHTTP/1.1 202 A\r\ncontent-length: 0\r\n\r\n",
        Ok((202, "", true)),
    ),
    // A server that closes the connection.
    (
        "HTTP/1.1 503 Busy\r\nConnection: close\r\nRetry-After: 7\r\nContent-Length: 1\r\n\r\nx",
        Ok((503, "x", false)),
    ),
    (
        "HTTP/1.0 400 Bad\r\nContent-Length: 1\r\n\r\nx",
        Ok((400, "x", false)),
    ),
    (
        "HTTP/1.1 304 \r\nContent-Length: 9\r\n\r\n",
        Ok((304, "", true)),
    ),
    // No response.
    ("", Err("unreachable")),
    ("HTTP/1.1 100 Continue\r\n\r\n", Err("unreachable")),
    // The connection ends in the response.
    ("H", Err("malformed")),
    ("HTTP/1.1 200 OK\r\nContent-Length: 2\r\n", Err("malformed")),
    (
        "HTTP/1.1 200 OK\r\nContent-Length: 2\r\n\r\n{",
        Err("malformed"),
    ),
    (
        "HTTP/1.1 200 OK\r\nTransfer-Encoding: chunked\r\n\r\n3\r\n{\"a\r\n",
        Err("malformed"),
    ),
    (
        "HTTP/1.1 200 OK\r\nTransfer-Encoding: chunked\r\n\r\n3\r\n{\"a\r\n4\r\n\":",
        Err("malformed"),
    ),
    (
        "HTTP/1.1 200 OK\r\nTransfer-Encoding: chunked\r\n\r\n2\r\n{}\r\n0\r\nX-Sum: 1\r\n",
        Err("malformed"),
    ),
    // The bytes are no response.
    ("SSH-2.0-OpenSSH_9.6\r\n\r\n", Err("malformed")),
    ("HTTP/2 200\r\n\r\n", Err("malformed")),
    ("HTTP/1.1 20 OK\r\n\r\n", Err("malformed")),
    ("HTTP/1.1 200 OK\nContent-Length: 2\n\n{}", Err("malformed")),
    (
        "HTTP/1.1 101 Switching Protocols\r\nUpgrade: x\r\nConnection: upgrade\r\n\r\n",
        Err("malformed"),
    ),
    (
        "HTTP/1.1 200 OK\r\nContent-Length: 2\r\nTransfer-Encoding: chunked\r\n\r\n2\r\n{}\r\n0\r\n\r\n",
        Err("malformed"),
    ),
    (
        "HTTP/1.1 200 OK\r\nContent-Length: 2\r\nContent-Length: 3\r\n\r\n{}x",
        Err("malformed"),
    ),
    (
        "HTTP/1.1 200 OK\r\nContent-Length: -1\r\n\r\n",
        Err("malformed"),
    ),
    (
        "HTTP/1.1 200 OK\r\nTransfer-Encoding: chunked\r\n\r\nx\r\n{}\r\n0\r\n\r\n",
        Err("malformed"),
    ),
];

/// Returns a request with the body `{}`.
fn request(alloc: Global) -> Result<Request<Vec<u8>>, Fail> {
    Ok(
        Request::post(alloc, "http://h:4318/v1/traces")
            .header("content-type", "application/json")
            .body(Vec::from_slice(alloc, b"{}")?)?,
    )
}

/// The text of this request.
const SENT: &'static [u8] =
    b"POST /v1/traces HTTP/1.1\r\nhost: h:4318\r\nconnection: keep-alive\r\n\
    content-type: application/json\r\ncontent-length: 2\r\n\r\n{}";

fn kind_of(error: &HttpError) -> &'static str {
    match error {
        HttpError::Unreachable => "unreachable",
        HttpError::Io(error) => match error.kind() {
            ErrorKind::BrokenPipe => "broken pipe",
            ErrorKind::ConnectionReset => "reset",
            _ => "io",
        },
        HttpError::Unopened(path, error) => match error.kind() {
            ErrorKind::NotFound if path.as_str().ends_with("/request") => "no request",
            ErrorKind::NotFound if path.as_str().ends_with("/response") => "no response",
            _ => "unopened",
        },
        HttpError::Malformed => "malformed",
        HttpError::Memory(_) => "memory",
    }
}

/// Returns `true` if this is the answer.
fn is_answer(sent: &Result<Response<Vec<u8>>, HttpError>, is_open: bool, wanted: &Answer) -> bool {
    match (sent, wanted) {
        (Ok(response), Ok((status, body, open))) => {
            response.status().as_u16() == *status
                && response.body().as_slice() == body.as_bytes()
                && is_open == *open
        }
        (Err(error), Err(kind)) => kind_of(error) == *kind && !is_open,
        _ => false,
    }
}

/// Sends the request, and fails unless this is the answer. The request was written once, whole.
fn check<R: Abort + RandomSource>(
    alloc: Global,
    rt: &R,
    reader: Given,
    wanted: &Answer,
) -> Result<(), Fail> {
    let keys = RandomState::new(rt)?;
    let mut client = StreamClient::new(alloc, keys, reader, Taken::all(alloc));
    let sent = client.send_bytes(&request(alloc)?);
    assert!(rt; is_answer(&sent, client.is_open(), wanted));
    assert!(rt; client.get_ref().1.bytes.as_slice() == SENT);
    Ok(())
}

/// Sends the request, and returns the answer.
fn sent<R: RandomSource>(
    alloc: Global,
    rt: &R,
    reader: Given,
) -> Result<Result<Response<Vec<u8>>, HttpError>, Fail> {
    let keys = RandomState::new(rt)?;
    let mut client = StreamClient::new(alloc, keys, reader, Taken::all(alloc));
    Ok(client.send_bytes(&request(alloc)?))
}

fn given(alloc: Global, text: &str) -> Result<Given, Fail> {
    Ok(Given::new(Vec::from_slice(alloc, text.as_bytes())?))
}

#[test]
fn an_answer_is_the_same_in_pieces_of_any_size(rt: HostRuntime) -> Result<(), Fail> {
    let alloc = rt.alloc();
    for (text, wanted) in &ANSWERS {
        for step in [1, 2, 3, 7, 64, usize::MAX] {
            check(alloc, &rt, given(alloc, text)?.step(step), wanted)?;
            check(
                alloc,
                &rt,
                given(alloc, text)?.step(step).interrupted(),
                wanted,
            )?;
        }
    }
    Ok(())
}

#[test]
fn no_answer_that_is_cut_off_is_read(rt: HostRuntime) -> Result<(), Fail> {
    let alloc = rt.alloc();
    for text in [OK, CHUNKED, TRAILER] {
        for place in 0..text.len() {
            let wanted = match place {
                0 => Err("unreachable"),
                _ => Err("malformed"),
            };
            check(alloc, &rt, given(alloc, &text[..place])?, &wanted)?;
            let failing = given(alloc, text)?.failing_at(place);
            check(alloc, &rt, failing, &Err("reset"))?;
        }
    }
    Ok(())
}

#[test]
fn a_reader_that_fails_ends_no_body(rt: HostRuntime) -> Result<(), Fail> {
    let alloc = rt.alloc();
    let text = "HTTP/1.1 200 OK\r\n\r\n{}";
    for place in 0..text.len() + 1 {
        let failing = given(alloc, text)?.failing_at(place);
        check(alloc, &rt, failing, &Err("reset"))?;
    }
    Ok(())
}

#[test]
fn a_response_has_its_headers(rt: HostRuntime) -> Result<(), Fail> {
    let alloc = rt.alloc();
    let text =
        "HTTP/1.1 503 Busy\r\nRETRY-AFTER: \t7 \r\nx: 1\r\nX: 2\r\nContent-Length: 0\r\n\r\n";
    let Ok(response) = sent(alloc, &rt, given(alloc, text)?.step(1))? else {
        panic!(rt; "no response");
    };
    let headers = response.headers();
    assert!(rt; headers.len() == 4);
    let Some(wait) = headers.get("retry-after") else {
        panic!(rt; "no header");
    };
    assert!(rt; wait.as_bytes() == b"7".as_slice());
    assert!(rt; headers.get_all("x").iter().count() == 2);
    Ok(())
}
