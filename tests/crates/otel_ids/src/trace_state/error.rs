//! What an error on a trace state prints.
use otel_ids::TraceStateError;
use std::alloc::AllocError;
use std::test::Fail;

#[test]
fn memory_running_out_has_a_text(rt: HostRuntime) -> Result<(), Fail> {
    let text = format!(in rt.alloc(); "{}", TraceStateError::from(AllocError))?;
    assert_eq!(rt; text.as_str(), "no memory");
    Ok(())
}

#[test]
fn errors_print_the_text_that_is_not_valid(rt: HostRuntime) -> Result<(), Fail> {
    let alloc = rt.alloc();
    for (error, text) in [
        (
            TraceStateError::Key(String::from_str(alloc, "A")?),
            "A is not a valid key in TraceState, see https://www.w3.org/TR/trace-context-2/#key for more details",
        ),
        (
            TraceStateError::Value(String::from_str(alloc, "1=2")?),
            "1=2 is not a valid value in TraceState, see https://www.w3.org/TR/trace-context-2/#value for more details",
        ),
        (
            TraceStateError::List(String::from_str(alloc, "")?),
            " is not a valid list member in TraceState, see https://www.w3.org/TR/trace-context-2/#list for more details",
        ),
    ] {
        let printed = format!(in alloc; "{error}")?;
        assert_eq!(rt; printed.as_str(), text);
    }
    Ok(())
}
