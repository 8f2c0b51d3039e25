//! The lines of log records that a failing writer leaves, and that the exporter then writes.
use crate::batches::scope;
use crate::files::Scripted;
use crate::records::{cart_service, no_price, observed, under};
use otel_otlp::{OtlpJsonLogExporter, logs_text};
use otel_sdk::error::OTelSdkError;
use otel_sdk::logs::LogData;
use otel_sdk::resource::Resource;
use otel_sdk_base::Exporter;
use std::alloc::Global;
use std::rc::Rc;
use std::test::Fail;

// An exporter to a writer that takes this number of bytes and then fails this number of times.
fn exporter(
    alloc: Global,
    room: usize,
    failures: usize,
) -> Result<OtlpJsonLogExporter<Scripted>, Fail> {
    let writer = Scripted {
        taken: Vec::new(alloc),
        room,
        failures,
    };
    Ok(OtlpJsonLogExporter::new(alloc, writer)?)
}

fn batch(alloc: Global) -> Result<[LogData; 1], Fail> {
    Ok([observed(alloc, 5, scope(alloc, "s")?)])
}

fn object(alloc: Global) -> Result<String, Fail> {
    let none = Resource::builder_empty(alloc).build();
    Ok(logs_text(alloc, &none, &batch(alloc)?)?)
}

#[test]
fn a_batch_of_records_is_a_line(rt: HostRuntime) -> Result<(), Fail> {
    let alloc = rt.alloc();
    let mut exporter = exporter(alloc, 0, 0)?;
    exporter.set_resource(Rc::new(alloc, cart_service(alloc)?)?);
    let records = [under(no_price(alloc)?, scope(alloc, "cart")?)];
    assert!(rt; exporter.export(&records).is_ok());
    assert!(rt; exporter.export(&[]).is_ok());
    assert!(rt; exporter.force_flush().is_ok());
    let mut wanted = logs_text(alloc, &cart_service(alloc)?, &records)?;
    wanted.push_str("\n")?;
    assert_eq!(rt; exporter.get_ref().taken.as_slice(), wanted.as_bytes());
    Ok(())
}

#[test]
fn a_line_of_records_that_was_cut_off_stands_alone(rt: HostRuntime) -> Result<(), Fail> {
    let alloc = rt.alloc();
    let line = object(alloc)?;
    let mut exporter = exporter(alloc, 60, 1)?;
    let refused = exporter.export(&batch(alloc)?);
    assert!(rt; matches!(refused, Err(OTelSdkError::Io(_))));
    assert!(rt; exporter.export(&batch(alloc)?).is_ok());
    let mut wanted = String::from_str(alloc, line.as_str().get(0..60).ok_or("short")?)?;
    wanted.push_str("\n")?;
    wanted.push_str(line.as_str())?;
    wanted.push_str("\n")?;
    assert_eq!(rt; exporter.get_ref().taken.as_slice(), wanted.as_bytes());
    Ok(())
}

#[test]
fn a_shutdown_writes_the_pending_newline(rt: HostRuntime) -> Result<(), Fail> {
    let alloc = rt.alloc();
    let line = object(alloc)?;
    let mut exporter = exporter(alloc, line.len(), 1)?;
    assert!(rt; exporter.export(&batch(alloc)?).is_ok());
    assert_eq!(rt; exporter.get_ref().taken.as_slice(), line.as_bytes());
    assert!(rt; exporter.shutdown().is_ok());
    assert_eq!(rt; exporter.get_ref().taken.len(), line.len() + 1);
    let late = exporter.export(&batch(alloc)?);
    assert!(rt; matches!(late, Err(OTelSdkError::AlreadyShutdown)));
    assert!(rt; matches!(exporter.shutdown(), Err(OTelSdkError::AlreadyShutdown)));
    assert!(rt; matches!(exporter.force_flush(), Err(OTelSdkError::AlreadyShutdown)));
    Ok(())
}
