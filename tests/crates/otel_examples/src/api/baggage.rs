//! A baggage.
use otel_examples::api::baggage;
use std::test::Fail;

#[test]
fn a_baggage_is_filled_read_and_printed(rt: HostRuntime) -> Result<(), Fail> {
    let alloc = rt.alloc();
    let filled = baggage::of_tenant(alloc)?;
    assert!(rt; baggage::region(&filled) == Some("eu west"));
    assert_eq!(rt; filled.len(), 2);
    let header = baggage::tenant_header(alloc)?;
    assert_eq!(rt; header.as_str(), "tenant=acme,region=eu%20west");
    Ok(())
}
