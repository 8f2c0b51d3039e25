//! The printed text of a propagation error.
use opentelemetry::propagation::PropagationError;
use std::alloc::AllocError;
use std::test::Fail;

#[test]
fn errors_tell_their_cause(rt: HostRuntime) -> Result<(), Fail> {
    let memory = format!(in rt.alloc(); "{}", PropagationError::from(AllocError))?;
    assert_eq!(rt; memory.as_str(), "no memory");
    let refused = format!(in rt.alloc(); "{}", PropagationError::Refused)?;
    assert_eq!(rt; refused.as_str(), "refused");
    Ok(())
}
