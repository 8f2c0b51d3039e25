//! The errors that `?` converts, and the printed texts.
use opentelemetry::propagation::PropagationError;
use opentelemetry::trace::{SpanCause, SpanRefused, StartError};
use otel_sdk_base::error::OTelSdkError;
use std::alloc::AllocError;
use std::io;
use std::test::Fail;

/// A refusal of a table whose numbers are used up.
fn used_up() -> SpanRefused<u8> {
    SpanRefused {
        span: 7,
        cause: SpanCause::NumbersUsedUp,
    }
}

/// A refusal of a table that is out of memory.
fn no_memory() -> SpanRefused<u8> {
    SpanRefused {
        span: 7,
        cause: SpanCause::Memory(AllocError),
    }
}

/// Converted errors, with their debug texts and texts.
fn rows() -> [(OTelSdkError, &'static str, &'static str); 11] {
    let (memory, no_number) = ("Memory(AllocError)", "NumbersUsedUp");
    let (no_room, none_left) = ("no memory", "no span number left");
    [
        (OTelSdkError::from(AllocError), memory, no_room),
        (
            OTelSdkError::from(SpanCause::NumbersUsedUp),
            no_number,
            none_left,
        ),
        (
            OTelSdkError::from(SpanCause::Memory(AllocError)),
            memory,
            no_room,
        ),
        (OTelSdkError::from(used_up()), no_number, none_left),
        (OTelSdkError::from(no_memory()), memory, no_room),
        (
            OTelSdkError::from(StartError::Refused(used_up())),
            no_number,
            none_left,
        ),
        (
            OTelSdkError::from(StartError::<u8>::Build(AllocError)),
            memory,
            no_room,
        ),
        (
            OTelSdkError::from(PropagationError::Memory(AllocError)),
            memory,
            no_room,
        ),
        (
            OTelSdkError::from(PropagationError::Refused),
            "PropagationRefused",
            "propagation refused",
        ),
        (
            OTelSdkError::from(io::Error::from(io::ErrorKind::NotFound)),
            "Io(Kind(NotFound))",
            "entity not found",
        ),
        (
            OTelSdkError::from(io::Error::from(io::ErrorKind::OutOfMemory)),
            memory,
            no_room,
        ),
    ]
}

#[test]
fn an_error_keeps_its_cause(rt: HostRuntime) -> Result<(), Fail> {
    let alloc = rt.alloc();
    for (error, debug, text) in rows() {
        assert_eq!(rt; format!(in alloc; "{error:?}")?.as_str(), debug);
        assert_eq!(rt; error.to_string(alloc)?.as_str(), text);
    }
    let closed = OTelSdkError::AlreadyShutdown.to_string(alloc)?;
    assert_eq!(rt; closed.as_str(), "Shutdown already invoked");
    let failed = OTelSdkError::InternalFailure(String::from_str(alloc, "no disk")?);
    assert_eq!(rt;
        failed.to_string(alloc)?.as_str(),
        "Operation failed: no disk"
    );
    Ok(())
}

#[test]
fn a_failed_request_is_out_of_memory(rt: HostRuntime) -> Result<(), Fail> {
    let error = OTelSdkError::from(io::Error::from_raw_os_error(12));
    assert!(rt; matches!(error, OTelSdkError::Memory(AllocError)));
    let full = OTelSdkError::from(io::Error::from(io::ErrorKind::StorageFull));
    let OTelSdkError::Io(full) = full else {
        panic!(&rt; "another error")
    };
    assert!(rt; full.kind() == io::ErrorKind::StorageFull);
    Ok(())
}
