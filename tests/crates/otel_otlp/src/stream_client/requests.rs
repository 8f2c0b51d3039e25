//! The text of requests, and writers that are slow, interrupted or fail.
use crate::stream_client::pieces::{Given, Taken};
use crate::stream_client::{OK, SENT, is_answer, kind_of, request};
use http::Request;
use otel_otlp::{HttpClient, StreamClient};
use std::hash::RandomState;
use std::test::Fail;

/// URIs, with the target and the host that are written.
const URIS: [(&'static str, &'static str, &'static str); 7] = [
    ("http://h:4318/v1/traces", "/v1/traces", "h:4318"),
    ("https://h/a/b?c=d&e", "/a/b?c=d&e", "h"),
    ("http://h", "/", "h"),
    ("http://h?a", "/?a", "h"),
    ("http://user:word@h:1/", "/", "h:1"),
    ("http://[::1]:4318/x", "/x", "[::1]:4318"),
    ("/v1/logs", "/v1/logs", ""),
];

#[test]
fn a_request_has_the_target_and_the_host_of_its_uri(rt: HostRuntime) -> Result<(), Fail> {
    let alloc = rt.alloc();
    for (uri, target, host) in URIS {
        let request = Request::post(alloc, uri).body(Vec::new(alloc))?;
        let reader = Given::new(Vec::from_slice(alloc, OK.as_bytes())?);
        let keys = RandomState::new(&rt)?;
        let mut client = StreamClient::new(alloc, keys, reader, Taken::all(alloc));
        assert!(rt; client.send_bytes(&request).is_ok());
        let wanted = format!(in alloc;
            "POST {target} HTTP/1.1\r\nhost: {host}\r\nconnection: keep-alive\r\ncontent-length: 0\r\n\r\n"
        )?;
        assert!(rt; client.get_ref().1.bytes.as_slice() == wanted.as_bytes());
    }
    Ok(())
}

#[test]
fn a_request_that_names_its_host_or_has_no_path_is_not_written(
    rt: HostRuntime,
) -> Result<(), Fail> {
    let alloc = rt.alloc();
    let named = Request::post(alloc, "http://h/")
        .header("host", "g")
        .body(Vec::new(alloc))?;
    let longer = Request::post(alloc, "http://h/")
        .header("content-length", "1")
        .body(Vec::new(alloc))?;
    let bare = Request::post(alloc, "h:1").body(Vec::new(alloc))?;
    for request in [named, longer, bare] {
        let reader = Given::new(Vec::from_slice(alloc, OK.as_bytes())?);
        let keys = RandomState::new(&rt)?;
        let mut client = StreamClient::new(alloc, keys, reader, Taken::all(alloc));
        let sent = client.send_bytes(&request);
        assert!(rt; is_answer(&sent, client.is_open(), &Err("unreachable")));
        let (reader, writer) = client.get_ref();
        assert!(rt; reader.given() == 0 && writer.bytes.is_empty());
    }
    Ok(())
}

#[test]
fn a_writer_that_takes_some_bytes_at_a_time_gets_the_request(rt: HostRuntime) -> Result<(), Fail> {
    let alloc = rt.alloc();
    let writers = [
        Taken::all(alloc).step(1),
        Taken::all(alloc).step(7),
        Taken::all(alloc).step(3).interrupted(),
        Taken::all(alloc).interrupted(),
    ];
    for writer in writers {
        let reader = Given::new(Vec::from_slice(alloc, OK.as_bytes())?);
        let mut client = StreamClient::new(alloc, RandomState::new(&rt)?, reader, writer);
        let sent = client.send_bytes(&request(alloc)?);
        assert!(rt; is_answer(&sent, client.is_open(), &Ok((200, "{}", true))));
        assert!(rt; client.get_ref().1.bytes.as_slice() == SENT);
    }
    Ok(())
}

#[test]
fn nothing_is_read_or_written_after_a_writer_has_failed(rt: HostRuntime) -> Result<(), Fail> {
    let alloc = rt.alloc();
    for place in 0..SENT.len() + 1 {
        let writer = match place < SENT.len() {
            true => Taken::all(alloc).failing_at(place),
            false => Taken::all(alloc).failing_to_flush(),
        };
        let reader = Given::new(Vec::from_slice(alloc, OK.as_bytes())?);
        let mut client = StreamClient::new(alloc, RandomState::new(&rt)?, reader, writer);
        let why = match place < SENT.len() {
            true => "broken pipe",
            false => "unreachable",
        };
        for error in [why, "unreachable"] {
            let sent = client.send_bytes(&request(alloc)?);
            assert!(rt; is_answer(&sent, client.is_open(), &Err(error)));
            let (reader, writer) = client.get_ref();
            assert!(rt; reader.given() == 0 && writer.bytes.as_slice() == &SENT[..place]);
        }
    }
    Ok(())
}

#[test]
fn a_connection_carries_requests_until_one_side_closes_it(rt: HostRuntime) -> Result<(), Fail> {
    let alloc = rt.alloc();
    let closing = "HTTP/1.1 429 Slow\r\nConnection: close\r\nContent-Length: 0\r\n\r\n";
    let mut bytes = Vec::from_slice(alloc, OK.as_bytes())?;
    bytes.extend_from_slice(OK.as_bytes())?;
    bytes.extend_from_slice(closing.as_bytes())?;
    // A reader that gives one byte at a time gives none past the response.
    let reader = Given::new(bytes).step(1);
    let keys = RandomState::new(&rt)?;
    let mut client = StreamClient::new(alloc, keys, reader, Taken::all(alloc));
    let wanted = [
        Ok((200, "{}", true)),
        Ok((200, "{}", true)),
        Ok((429, "", false)),
        Err("unreachable"),
    ];
    for (place, wanted) in wanted.iter().enumerate() {
        let sent = client.send_bytes(&request(alloc)?);
        assert!(rt; is_answer(&sent, client.is_open(), wanted));
        let count = (place + 1).min(3);
        assert_eq!(rt; client.get_ref().1.bytes.len(), count * SENT.len());
    }
    assert_eq!(rt; client.get_ref().0.given(), 2 * OK.len() + closing.len());
    Ok(())
}

#[test]
fn bytes_past_a_response_answer_no_later_request(rt: HostRuntime) -> Result<(), Fail> {
    let alloc = rt.alloc();
    let mut bytes = Vec::from_slice(alloc, OK.as_bytes())?;
    bytes.extend_from_slice(b"HTTP/1.1 204 No Content\r\n\r\n")?;
    let reader = Given::new(bytes);
    let keys = RandomState::new(&rt)?;
    let mut client = StreamClient::new(alloc, keys, reader, Taken::all(alloc));
    let sent = client.send_bytes(&request(alloc)?);
    assert!(rt; is_answer(&sent, client.is_open(), &Ok((200, "{}", false))));
    match client.send_bytes(&request(alloc)?) {
        Ok(_) => panic!(rt; "a second response"),
        Err(error) => assert_eq!(rt; kind_of(&error), "unreachable"),
    }
    assert!(rt; client.get_ref().1.bytes.as_slice() == SENT);
    Ok(())
}
