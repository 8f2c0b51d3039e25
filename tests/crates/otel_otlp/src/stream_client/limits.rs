//! Responses whose head, headers or body are at a limit, and past it.
use crate::stream_client::check;
use crate::stream_client::pieces::Given;
use std::alloc::{AllocError, Global};
use std::test::Fail;

/// The most bytes of a head and of a body, and the most headers.
const HEAD: usize = 64 * 1024;

const BODY: usize = 4 * 1024 * 1024;

const HEADERS: usize = 128;

fn with_head(alloc: Global, len: usize) -> Result<Vec<u8>, AllocError> {
    let mut bytes = Vec::from_slice(alloc, b"HTTP/1.1 204 No Content\r\nA: ")?;
    while bytes.len() < len - 4 {
        bytes.push(b'a')?;
    }
    bytes.extend_from_slice(b"\r\n\r\n")?;
    Ok(bytes)
}

fn with_headers(alloc: Global, count: usize) -> Result<Vec<u8>, AllocError> {
    let mut bytes = Vec::from_slice(alloc, b"HTTP/1.1 204 No Content\r\n")?;
    for _ in 0..count {
        bytes.extend_from_slice(b"a: b\r\n")?;
    }
    bytes.extend_from_slice(b"\r\n")?;
    Ok(bytes)
}

// A body of blanks, in chunks of 64 KiB or with its length.
fn with_body(alloc: Global, len: usize, is_chunked: bool) -> Result<Vec<u8>, AllocError> {
    let mut bytes = Vec::from_slice(alloc, b"HTTP/1.1 200 OK\r\n")?;
    match is_chunked {
        true => bytes.extend_from_slice(b"Transfer-Encoding: chunked\r\n\r\n")?,
        false => {
            let head = format!(in alloc; "Content-Length: {len}\r\n\r\n")?;
            bytes.extend_from_slice(head.as_bytes())?;
        }
    }
    let mut left = len;
    while left > 0 {
        let count = left.min(HEAD);
        left -= count;
        if is_chunked {
            bytes.extend_from_slice(format!(in alloc; "{count:x}\r\n")?.as_bytes())?;
        }
        let end = bytes.len() + count;
        bytes.resize(end, b' ')?;
        if is_chunked {
            bytes.extend_from_slice(b"\r\n")?;
        }
    }
    if is_chunked {
        bytes.extend_from_slice(b"0\r\n\r\n")?;
    }
    Ok(bytes)
}

#[test]
fn a_head_has_at_most_64_kib(rt: HostRuntime) -> Result<(), Fail> {
    let alloc = rt.alloc();
    let reader = Given::new(with_head(alloc, HEAD)?);
    check(alloc, &rt, reader, &Ok((204, "", true)))?;
    // Nothing past the limit is waited for.
    for len in [HEAD + 1, HEAD + 4, 3 * HEAD] {
        let reader = Given::new(with_head(alloc, len)?).failing_at(HEAD + 16 * 1024);
        check(alloc, &rt, reader, &Err("malformed"))?;
    }
    Ok(())
}

#[test]
fn a_head_has_at_most_128_headers(rt: HostRuntime) -> Result<(), Fail> {
    let alloc = rt.alloc();
    let reader = Given::new(with_headers(alloc, HEADERS)?);
    check(alloc, &rt, reader, &Ok((204, "", true)))?;
    let reader = Given::new(with_headers(alloc, HEADERS + 1)?);
    check(alloc, &rt, reader, &Err("malformed"))
}

#[test]
fn a_body_has_at_most_4_mib(rt: HostRuntime) -> Result<(), Fail> {
    let alloc = rt.alloc();
    let blanks = [b' '; 1];
    for is_chunked in [true, false] {
        for (len, is_within) in [(BODY, true), (BODY + 1, false)] {
            let reader = Given::new(with_body(alloc, len, is_chunked)?);
            let sent = crate::stream_client::sent(alloc, &rt, reader)?;
            match sent {
                Ok(response) => {
                    assert!(rt; is_within && response.body().len() == len);
                    assert!(rt; response.body().iter().all(|byte| *byte == blanks[0]));
                }
                Err(error) => {
                    assert!(rt; !is_within && crate::stream_client::kind_of(&error) == "malformed");
                }
            }
        }
    }
    Ok(())
}
