//! Bytes as a `google.rpc.Status`.
use hex;
use otel_proto_answers::{ReadError, Status, read_status};
use std::alloc::Global;
use std::process::Abort;
use std::test::Fail;

// The bytes, with their code and message, `""` if there is none; `None` if they are malformed.
const ROWS: [(&str, Option<(i32, &str)>); 31] = [
    ("", Some((0, ""))),
    ("08031203626164", Some((3, "bad"))),
    // Fields in another order.
    ("12036261640803", Some((3, "bad"))),
    // The last code and the last message win.
    ("08050806", Some((6, ""))),
    ("12016b12016a", Some((0, "j"))),
    ("12016b1200", Some((0, ""))),
    // A message of another kind: its fields have other types or numbers.
    ("0a01611806", Some((0, ""))),
    ("0a016b1202180112021802", Some((0, "\x18\x02"))),
    // A length after the end.
    ("1210b7", None),
    // The number 0.
    ("00", None),
    // A varint of 11 bytes, and varints of 10 bytes.
    ("08ffffffffffffffffffff01", None),
    ("08ffffffffffffffffff01", Some((-1, ""))),
    ("0880808080808080808001", Some((0, ""))),
    // Only the low 32 bits count.
    ("0880808080f8ffffffff01", Some((-2147483648, ""))),
    ("08808080808001", Some((0, ""))),
    // A string that isn't UTF-8, also before another.
    ("1201ff", None),
    ("1201ff12016d", None),
    // The same bytes under a number that isn't a string's.
    ("0a01ff", Some((0, ""))),
    // A message's number as a varint.
    ("1002", Some((0, ""))),
    // Unknown fields, and a group.
    ("a2060161", Some((0, ""))),
    ("a3060801a406", Some((0, ""))),
    ("880105", Some((0, ""))),
    ("390100000000000000", Some((0, ""))),
    ("3a0101", Some((0, ""))),
    ("12016108030d01000000280a", Some((3, "a"))),
    // A group without its end, with another end, and an end without a group.
    ("a306", None),
    ("0b", None),
    ("a306ac06", None),
    ("a406", None),
    // 8 bytes cut off, and the wire type 7.
    ("3901", None),
    ("0f", None),
];

// Asserts what the bytes are read as.
fn assert_read(rt: &impl Abort, alloc: Global, bytes: &[u8], wanted: Option<(i32, &str)>) {
    match (read_status(alloc, bytes), wanted) {
        (Ok(Status { code, message }), Some((wanted, text))) => {
            assert_eq!(rt; code, wanted);
            match message {
                Some(message) => assert_eq!(rt; message.as_str(), text),
                None => assert_eq!(rt; text, ""),
            }
        }
        (Err(ReadError::Malformed), None) => (),
        _ => assert!(rt; false),
    }
}

#[test]
fn rows(rt: HostRuntime) -> Result<(), Fail> {
    let alloc = rt.alloc();
    for (row, wanted) in ROWS {
        let bytes = hex::decode(alloc, row)?;
        assert_read(&rt, alloc, bytes.as_slice(), wanted);
    }
    Ok(())
}

// The code 3 after groups of the number 100, each within the one before it.
fn code_after_groups(alloc: Global, count: usize) -> Result<Vec<u8>, Fail> {
    let mut bytes = Vec::new(alloc);
    for _ in 0..count {
        bytes.extend_from_slice(b"\xa3\x06")?;
    }
    for _ in 0..count {
        bytes.extend_from_slice(b"\xa4\x06")?;
    }
    bytes.extend_from_slice(b"\x08\x03")?;
    Ok(bytes)
}

#[test]
fn a_hundred_groups_within_each_other(rt: HostRuntime) -> Result<(), Fail> {
    let alloc = rt.alloc();
    let bytes = code_after_groups(alloc, 100)?;
    assert_read(&rt, alloc, bytes.as_slice(), Some((3, "")));
    let bytes = code_after_groups(alloc, 101)?;
    assert_read(&rt, alloc, bytes.as_slice(), None);
    Ok(())
}

#[test]
fn the_reason_is_printed(rt: HostRuntime) -> Result<(), Fail> {
    let alloc = rt.alloc();
    let Err(error) = read_status(alloc, b"\x08") else {
        return Err(Fail::from("the bytes are no message"));
    };
    let printed = format!(in alloc; "{error}")?;
    assert_eq!(rt; printed.as_str(), "not a message of Protocol Buffers");
    Ok(())
}
