//! Each error of the API and the SDK is an error to `?`, in a program with `anyhow` and in one with
//! `OTelSdkError`.
use opentelemetry::propagation::PropagationError;
use opentelemetry::trace::{NotEntered, SpanCause, SpanRefused, StartError};
use otel_sdk::error::{OTelSdkError, OTelSdkResult};
use otel_sdk::trace::IdError;
use std::alloc::AllocError;
use std::io;
use std::test::Fail;

/// A span type with neither `Debug` nor `Display`.
#[derive(Drop)]
struct Silent;

/// A failed call of each of these errors.
struct Failed;

impl Failed {
    fn cause() -> Result<(), SpanCause> {
        Err(SpanCause::NumbersUsedUp)
    }

    fn insert() -> Result<u64, SpanRefused<Silent>> {
        Err(SpanRefused {
            span: Silent,
            cause: SpanCause::NumbersUsedUp,
        })
    }

    fn in_span() -> Result<u64, StartError<Silent>> {
        Err(StartError::Build(AllocError))
    }

    fn inject() -> Result<(), PropagationError> {
        Err(PropagationError::Refused)
    }

    fn read() -> io::Result<()> {
        Err(io::Error::from(io::ErrorKind::NotFound))
    }

    fn flush() -> OTelSdkResult {
        Err(OTelSdkError::AlreadyShutdown)
    }

    fn enter() -> Result<(), NotEntered> {
        Err(NotEntered::PositionsUsedUp)
    }
}

/// Fails at the step with this number, of 0 to 6.
fn by_anyhow(step: u8) -> anyhow::Result<()> {
    match step {
        0 => Failed::cause()?,
        1 => drop(Failed::insert()?),
        2 => drop(Failed::in_span()?),
        3 => Failed::inject()?,
        4 => Failed::read()?,
        5 => Failed::flush()?,
        _ => Failed::enter()?,
    }
    Ok(())
}

/// Fails at the step with this number, of 0 to 5.
fn by_sdk(step: u8) -> OTelSdkResult {
    match step {
        0 => Failed::cause()?,
        1 => drop(Failed::insert()?),
        2 => drop(Failed::in_span()?),
        3 => Failed::inject()?,
        4 => Failed::read()?,
        _ => Failed::enter()?,
    }
    Ok(())
}

#[test]
fn anyhow_tells_each_error(rt: HostRuntime) -> Result<(), Fail> {
    let alloc = rt.alloc();
    let texts = [
        "no span number left",
        "no span number left",
        "span not built: no memory",
        "refused",
        "entity not found",
        "Shutdown already invoked",
        "no position left",
    ];
    for (step, text) in texts.iter().enumerate() {
        let Err(error) = by_anyhow(step as u8) else {
            return Err(Fail::from("no error"));
        };
        assert_eq!(rt; error.to_string(alloc)?.as_str(), *text);
    }
    Ok(())
}

#[test]
fn the_error_of_the_sdk_tells_each_error(rt: HostRuntime) -> Result<(), Fail> {
    let alloc = rt.alloc();
    let texts = [
        "no span number left",
        "no span number left",
        "no memory",
        "propagation refused",
        "entity not found",
        "no position left",
    ];
    for (step, text) in texts.iter().enumerate() {
        let Err(error) = by_sdk(step as u8) else {
            return Err(Fail::from("no error"));
        };
        assert_eq!(rt; error.to_string(alloc)?.as_str(), *text);
    }
    Ok(())
}

#[test]
fn the_error_of_a_flush_prints_why(rt: HostRuntime) -> Result<(), Fail> {
    let alloc = rt.alloc();
    let rows = [
        (OTelSdkError::AlreadyShutdown, "Shutdown already invoked"),
        (OTelSdkError::Memory(AllocError), "no memory"),
        (
            OTelSdkError::InternalFailure(String::from_str(alloc, "no disk")?),
            "Operation failed: no disk",
        ),
    ];
    for (error, text) in rows {
        assert_eq!(rt; error.to_string(alloc)?.as_str(), text);
    }
    Ok(())
}

#[test]
fn a_span_that_was_not_entered_and_ids_print_why(rt: HostRuntime) -> Result<(), Fail> {
    let alloc = rt.alloc();
    for (error, text) in [
        (NotEntered::NumbersUsedUp, "no span number left"),
        (NotEntered::PositionsUsedUp, "no position left"),
        (NotEntered::Memory(AllocError), "no memory"),
    ] {
        assert_eq!(rt; error.to_string(alloc)?.as_str(), text);
    }
    for (error, text) in [
        (IdError::Zero, "no valid id was drawn"),
        (IdError::Source, "the source of random numbers failed"),
    ] {
        assert_eq!(rt; error.to_string(alloc)?.as_str(), text);
    }
    Ok(())
}
