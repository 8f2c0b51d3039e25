//! Comparisons of statuses.
use otel_base::StringValue;
use otel_context::Status;
use std::test::Fail;

#[test]
fn statuses_rise_from_unset_to_ok(rt: HostRuntime) -> Result<(), Fail> {
    let rising = [
        Status::default(),
        Status::error(StringValue::from("a")),
        Status::error(StringValue::from("b")),
        Status::Ok,
    ];
    for low in 0..4usize {
        for high in 0..4usize {
            assert_eq!(rt; rising[low] < rising[high], low < high);
            assert_eq!(rt; rising[low] == rising[high], low == high);
        }
        assert!(rt; rising[low].clone()? == rising[low]);
    }
    Ok(())
}
