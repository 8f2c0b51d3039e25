//! The bytes of values.
use otel_base::{AnyValue, Key};
use otel_proto::any_value_bytes;
use std::alloc::{AllocError, Global};
use std::process::Abort;
use std::test::Fail;

// Asserts that the value has these bytes.
fn assert_bytes(
    rt: &impl Abort,
    alloc: Global,
    value: AnyValue,
    wanted: &[u8],
) -> Result<(), AllocError> {
    let found = any_value_bytes(alloc, &value)?;
    assert_eq!(rt; found.as_slice(), wanted);
    Ok(())
}

#[test]
fn members_of_the_oneof_are_written_though_they_are_empty(rt: HostRuntime) -> Result<(), Fail> {
    let alloc = rt.alloc();
    assert_bytes(&rt, alloc, AnyValue::from("a"), b"\x0a\x01a")?;
    assert_bytes(&rt, alloc, AnyValue::from(""), b"\x0a\x00")?;
    assert_bytes(&rt, alloc, AnyValue::Boolean(true), b"\x10\x01")?;
    assert_bytes(&rt, alloc, AnyValue::Boolean(false), b"\x10\x00")?;
    assert_bytes(&rt, alloc, AnyValue::Int(0), b"\x18\x00")?;
    let empty = AnyValue::list(alloc, Vec::new(alloc))?;
    assert_bytes(&rt, alloc, empty, b"\x2a\x00")?;
    let bytes = AnyValue::bytes(alloc, b"\x00\xff")?;
    assert_bytes(&rt, alloc, bytes, b"\x3a\x02\x00\xff")?;
    Ok(())
}

#[test]
fn an_integer(rt: HostRuntime) -> Result<(), Fail> {
    let alloc = rt.alloc();
    let bytes = any_value_bytes(alloc, &AnyValue::Int(300))?;
    assert_eq!(rt; bytes.as_slice(), b"\x18\xac\x02".as_slice());
    Ok(())
}

#[test]
fn integers(rt: HostRuntime) -> Result<(), Fail> {
    let alloc = rt.alloc();
    let rows: [(i64, &[u8]); 7] = [
        (1, b"\x18\x01"),
        (127, b"\x18\x7f"),
        (128, b"\x18\x80\x01"),
        (300, b"\x18\xac\x02"),
        (-1, b"\x18\xff\xff\xff\xff\xff\xff\xff\xff\xff\x01"),
        (i64::MAX, b"\x18\xff\xff\xff\xff\xff\xff\xff\xff\x7f"),
        (i64::MIN, b"\x18\x80\x80\x80\x80\x80\x80\x80\x80\x80\x01"),
    ];
    for (value, wanted) in rows {
        assert_bytes(&rt, alloc, AnyValue::Int(value), wanted)?;
    }
    Ok(())
}

#[test]
fn lists_and_maps(rt: HostRuntime) -> Result<(), Fail> {
    let alloc = rt.alloc();
    let two = vec![in alloc; AnyValue::Int(1), AnyValue::from("")]?;
    let list = AnyValue::list(alloc, two)?;
    assert_bytes(
        &rt,
        alloc,
        list,
        b"\x2a\x08\x0a\x02\x18\x01\x0a\x02\x0a\x00",
    )?;
    let one = vec![in alloc; (Key::from("k"), AnyValue::from("v"))]?;
    let map = AnyValue::map(alloc, one)?;
    assert_bytes(
        &rt,
        alloc,
        map,
        b"\x32\x0a\x0a\x08\x0a\x01k\x12\x03\x0a\x01v",
    )?;
    let unnamed = vec![in alloc; (Key::from(""), AnyValue::from("v"))]?;
    let map = AnyValue::map(alloc, unnamed)?;
    assert_bytes(&rt, alloc, map, b"\x32\x07\x0a\x05\x12\x03\x0a\x01v")?;
    Ok(())
}

#[test]
fn a_length_of_two_bytes(rt: HostRuntime) -> Result<(), Fail> {
    let alloc = rt.alloc();
    let found = any_value_bytes(alloc, &AnyValue::bytes(alloc, &[7; 300])?)?;
    assert_eq!(rt; found.len(), 303);
    assert_eq!(rt; &found.as_slice()[..4], b"\x3a\xac\x02\x07".as_slice());
    Ok(())
}

// So many maps within each other, around the value, each with the key `k`.
fn in_maps(alloc: Global, levels: usize, value: AnyValue) -> Result<AnyValue, AllocError> {
    let mut tree = value;
    for _ in 0..levels {
        tree = AnyValue::map(alloc, vec![in alloc; (Key::from("k"), tree)]?)?;
    }
    Ok(tree)
}

// The bytes with their tag and length before them, if the length has at most two bytes.
fn field(alloc: Global, tag: u8, bytes: &[u8]) -> Result<Vec<u8>, AllocError> {
    let mut all = Vec::new(alloc);
    all.push(tag)?;
    if bytes.len() < 128 {
        all.push(bytes.len() as u8)?;
    } else {
        all.push((bytes.len() % 128) as u8 + 128)?;
        all.push((bytes.len() / 128 % 128) as u8)?;
    }
    all.extend_from_slice(bytes)?;
    Ok(all)
}

// The bytes of so many maps within each other, around the bytes of a value.
fn maps(alloc: Global, levels: usize, inner: &[u8]) -> Result<Vec<u8>, AllocError> {
    let mut bytes = inner.to_vec(alloc)?;
    for _ in 0..levels {
        let value = field(alloc, 0x12, bytes.as_slice())?;
        let mut entry = b"\x0a\x01k".to_vec(alloc)?;
        entry.extend_from_slice(value.as_slice())?;
        let list = field(alloc, 0x0a, entry.as_slice())?;
        bytes = field(alloc, 0x32, list.as_slice())?;
    }
    Ok(bytes)
}

#[test]
fn a_map_within_29_others_is_cut(rt: HostRuntime) -> Result<(), Fail> {
    let alloc = rt.alloc();
    let whole = in_maps(alloc, 29, AnyValue::Int(7))?;
    assert_bytes(&rt, alloc, whole, maps(alloc, 29, b"\x18\x07")?.as_slice())?;
    let deeper = in_maps(alloc, 30, AnyValue::Int(7))?;
    assert_bytes(
        &rt,
        alloc,
        deeper,
        maps(alloc, 29, b"\x0a\x02..")?.as_slice(),
    )?;
    Ok(())
}
