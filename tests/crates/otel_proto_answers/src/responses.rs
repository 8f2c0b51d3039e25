//! Bytes as a response to a request that a collector has taken.
use hex;
use otel_proto_answers::{Partial, ReadError, read_partial};
use std::test::Fail;

// The bytes, with the number of rejected items and the message, `""` if there is none; `None` if
// they are malformed.
const ROWS: [(&str, Option<(i64, &str)>); 18] = [
    ("", Some((0, ""))),
    ("0a00", Some((0, ""))),
    ("0a05080212016d", Some((2, "m"))),
    ("0a0312016d", Some((0, "m"))),
    // Cut off in the number, and in the partial success.
    ("0a0508ff", None),
    ("0a0208", None),
    // Two partial successes are one.
    ("0a05080112016d0a020802", Some((2, "m"))),
    ("0a05080112016d0a0312016e", Some((1, "n"))),
    ("0a05080112016d0a00", Some((1, "m"))),
    ("0a0208010a0208ff", None),
    ("0a0208ff0a020801", None),
    // A group doesn't go from one into the other.
    ("0a02a3060a02a406", None),
    // A negative number, and the highest one.
    ("0a0b08feffffffffffffffff01", Some((-2, ""))),
    ("0a0a08ffffffffffffffff7f", Some((9223372036854775807, ""))),
    // The partial success's number as a varint, and unknown fields in it.
    ("08050a020801", Some((1, ""))),
    ("0a0a1a016108042001120162", Some((4, "b"))),
    ("0a08a306a40612016d08", None),
    ("0a0612016d1201ff", None),
];

#[test]
fn rows(rt: HostRuntime) -> Result<(), Fail> {
    let alloc = rt.alloc();
    for (row, wanted) in ROWS {
        let bytes = hex::decode(alloc, row)?;
        match (read_partial(alloc, bytes.as_slice()), wanted) {
            (Ok(Partial { rejected, message }), Some((count, text))) => {
                assert_eq!(&rt; rejected, count);
                match message {
                    Some(message) => assert_eq!(&rt; message.as_str(), text),
                    None => assert_eq!(&rt; text, ""),
                }
            }
            (Err(ReadError::Malformed), None) => (),
            _ => assert!(&rt; false),
        }
    }
    Ok(())
}

#[test]
fn two_rejected_items_with_a_message(rt: HostRuntime) -> Result<(), Fail> {
    let alloc = rt.alloc();
    let partial = read_partial(alloc, b"\x0a\x05\x08\x02\x12\x01m")?;
    assert_eq!(rt; partial.rejected, 2);
    Ok(())
}
