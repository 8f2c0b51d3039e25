//! Text values.
use crate::hash_of;
use otel_base::StringValue;
use std::alloc::AllocError;
use std::cmp::Ordering;
use std::process::Abort;
use std::rc::RcStr;
use std::test::Fail;

fn is_the_text_v(rt: &impl Abort, value: &StringValue) -> Result<(), AllocError> {
    let same = StringValue::from("v");
    assert!(rt; *value == same);
    assert!(rt; *value < StringValue::from("va"));
    assert_eq!(rt; value.cmp(&StringValue::from("u")), Ordering::Greater);
    assert_eq!(rt; value.cmp(&same), Ordering::Equal);
    assert_eq!(rt; hash_of(value), hash_of(&same));
    assert_eq!(rt; value.as_str(), "v");
    assert!(rt; value.clone()? == same);
    Ok(())
}

#[test]
fn text_values_are_their_text_however_held(rt: HostRuntime) -> Result<(), Fail> {
    let alloc = rt.alloc();
    is_the_text_v(&rt, &StringValue::from("v"))?;
    is_the_text_v(&rt, &StringValue::from(String::from_str(alloc, "v")?))?;
    is_the_text_v(&rt, &StringValue::from(RcStr::from_str(alloc, "v")?))?;
    Ok(())
}

#[test]
fn text_values_are_printed(rt: HostRuntime) -> Result<(), Fail> {
    let value = StringValue::from("v");
    assert_eq!(rt; value.to_string(rt.alloc())?.as_str(), "v");
    assert_eq!(rt; format!(in rt.alloc(); "<{value}>")?.as_str(), "<v>");
    assert_eq!(rt; value.into_string(rt.alloc())?.as_str(), "v");
    Ok(())
}

#[test]
fn text_values_are_printed_without_width_and_fill(rt: HostRuntime) -> Result<(), Fail> {
    let alloc = rt.alloc();
    for value in [
        StringValue::from("v1"),
        StringValue::from(String::from_str(alloc, "v1")?),
        StringValue::from(RcStr::from_str(alloc, "v1")?),
    ] {
        assert_eq!(rt; format!(in alloc; "<{value:>4}>")?.as_str(), "<v1>");
        assert_eq!(rt; format!(in alloc; "<{value:*<4}>")?.as_str(), "<v1>");
        assert_eq!(rt; format!(in alloc; "<{value:.1}>")?.as_str(), "<v1>");
    }
    Ok(())
}
