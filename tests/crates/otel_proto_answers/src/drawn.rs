//! Messages with random fields among the known ones, whole and cut off.
use otel_proto_answers::{ReadError, Status, read_status};
use std::alloc::{AllocError, Global};
use std::process::Abort;
use std::test::Fail;

/// Random numbers.
#[derive(Drop)]
struct Draws {
    state: u64,
}

impl Draws {
    // A number below the limit.
    fn below(&mut self, limit: u64) -> u64 {
        self.state = self
            .state
            .wrapping_mul(6364136223846793005)
            .wrapping_add(1442695040888963407);
        (self.state >> 33) % limit
    }
}

fn push_varint(bytes: &mut Vec<u8>, value: u64) -> Result<(), AllocError> {
    let mut rest = value;
    for _ in 0..9 {
        if rest < 128 {
            break;
        }
        bytes.push((rest % 128 + 128) as u8)?;
        rest /= 128;
    }
    bytes.push(rest as u8)?;
    Ok(())
}

fn push_tag(bytes: &mut Vec<u8>, number: u64, kind: u64) -> Result<(), AllocError> {
    push_varint(bytes, number * 8 + kind)
}

// A field of an unknown number, or a group of at most this depth.
fn push_unknown(bytes: &mut Vec<u8>, draws: &mut Draws, depth: u64) -> Result<(), AllocError> {
    let number = 3 + draws.below((1 << 29) - 3);
    match draws.below(if depth == 0 { 4 } else { 5 }) {
        0 => {
            push_tag(bytes, number, 0)?;
            push_varint(bytes, u64::MAX >> draws.below(64))
        }
        1 => {
            push_tag(bytes, number, 1)?;
            bytes.extend_from_slice(b"\xff\x00\xff\x00\xff\x00\xff\x00")
        }
        2 => {
            let count = draws.below(200);
            push_tag(bytes, number, 2)?;
            push_varint(bytes, count)?;
            for _ in 0..count {
                bytes.push(draws.below(256) as u8)?;
            }
            Ok(())
        }
        3 => {
            push_tag(bytes, number, 5)?;
            bytes.extend_from_slice(b"\xff\xff\xff\xff")
        }
        _ => {
            push_tag(bytes, number, 3)?;
            for _ in 0..draws.below(4) {
                push_unknown(bytes, draws, depth - 1)?;
            }
            push_tag(bytes, number, 4)
        }
    }
}

// A field: the code, the message, one of them with another wire type, or an unknown one. Returns
// the last code and the last message.
fn push_field(
    bytes: &mut Vec<u8>,
    draws: &mut Draws,
    last: (i32, u8),
) -> Result<(i32, u8), AllocError> {
    match draws.below(8) {
        0 => {
            let code = draws.below(1 << 31);
            push_tag(bytes, 1, 0)?;
            push_varint(bytes, code)?;
            Ok((code as i32, last.1))
        }
        1 => {
            let message = b'a' + draws.below(26) as u8;
            push_tag(bytes, 2, 2)?;
            bytes.push(1)?;
            bytes.push(message)?;
            Ok((last.0, message))
        }
        2 => {
            push_tag(bytes, 1, 2)?;
            bytes.extend_from_slice(b"\x02\xff\xff")?;
            Ok(last)
        }
        3 => {
            push_tag(bytes, 2, 0)?;
            bytes.push(9)?;
            Ok(last)
        }
        _ => {
            push_unknown(bytes, draws, 3)?;
            Ok(last)
        }
    }
}

// Asserts that the bytes have this code and this message, which is 0 if there is none.
fn assert_last(rt: &impl Abort, alloc: Global, bytes: &[u8], last: (i32, u8)) {
    match read_status(alloc, bytes) {
        Ok(Status { code, message }) => {
            assert_eq!(rt; code, last.0);
            match message {
                Some(message) => assert_eq!(rt; message.as_bytes(), [last.1].as_slice()),
                None => assert_eq!(rt; last.1, 0),
            }
        }
        Err(_) => assert!(rt; false),
    }
}

#[test]
fn unknown_fields_are_skipped(rt: HostRuntime) -> Result<(), Fail> {
    let alloc = rt.alloc();
    let mut draws = Draws { state: 1 };
    for _ in 0..200 {
        let mut bytes = Vec::new(alloc);
        let mut last = (0, 0);
        for _ in 0..draws.below(12) {
            last = push_field(&mut bytes, &mut draws, last)?;
            assert_last(&rt, alloc, bytes.as_slice(), last);
        }
    }
    Ok(())
}

#[test]
fn a_field_cut_off_is_malformed(rt: HostRuntime) -> Result<(), Fail> {
    let alloc = rt.alloc();
    let mut draws = Draws { state: 2 };
    for _ in 0..200 {
        let mut bytes = Vec::new(alloc);
        push_field(&mut bytes, &mut draws, (0, 0))?;
        for end in 1..bytes.len() {
            let read = read_status(alloc, &bytes.as_slice()[..end]);
            assert!(&rt; matches!(read, Err(ReadError::Malformed)));
        }
    }
    Ok(())
}
