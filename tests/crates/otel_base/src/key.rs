//! Keys.
use crate::hash_of;
use otel_base::Key;
use std::alloc::AllocError;
use std::process::Abort;
use std::rc::RcStr;
use std::test::Fail;

fn is_the_key_k(rt: &impl Abort, key: &Key) -> Result<(), AllocError> {
    let same = Key::from("k");
    assert!(rt; *key == same);
    assert!(rt; *key < Key::from("ka"));
    assert_eq!(rt; hash_of(key), hash_of(&same));
    assert_eq!(rt; key.as_str(), "k");
    assert!(rt; key.clone()? == same);
    Ok(())
}

#[test]
fn keys_are_their_text_however_held(rt: HostRuntime) -> Result<(), Fail> {
    let alloc = rt.alloc();
    is_the_key_k(&rt, &Key::from_static_str("k"))?;
    is_the_key_k(&rt, &Key::from("k"))?;
    is_the_key_k(&rt, &Key::new(String::from_str(alloc, "k")?))?;
    is_the_key_k(&rt, &Key::from(String::from_str(alloc, "k")?))?;
    is_the_key_k(&rt, &Key::from(RcStr::from_str(alloc, "k")?))?;
    Ok(())
}

#[test]
fn keys_are_printed(rt: HostRuntime) -> Result<(), Fail> {
    let key = Key::from("k");
    assert_eq!(rt; key.to_string(rt.alloc())?.as_str(), "k");
    assert_eq!(rt; format!(in rt.alloc(); "<{key}>")?.as_str(), "<k>");
    assert_eq!(rt; key.into_string(rt.alloc())?.as_str(), "k");
    Ok(())
}

#[test]
fn keys_are_printed_without_width_and_fill(rt: HostRuntime) -> Result<(), Fail> {
    let alloc = rt.alloc();
    for key in [
        Key::from("k1"),
        Key::from(String::from_str(alloc, "k1")?),
        Key::from(RcStr::from_str(alloc, "k1")?),
    ] {
        assert_eq!(rt; format!(in alloc; "<{key:>4}>")?.as_str(), "<k1>");
        assert_eq!(rt; format!(in alloc; "<{key:*<4}>")?.as_str(), "<k1>");
        assert_eq!(rt; format!(in alloc; "<{key:.1}>")?.as_str(), "<k1>");
    }
    Ok(())
}
