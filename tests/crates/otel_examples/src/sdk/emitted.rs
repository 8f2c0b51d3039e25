//! A log record that reaches an exporter.
use opentelemetry::logs::LogRecord;
use opentelemetry::{InstrumentationScope, StringValue};
use otel_examples::sdk::emitted::emit;
use otel_sdk::logs::{
    BatchConfig, BatchLogProcessor, EmittedLogs, InMemoryLogExporter, LogData, SdkLogRecord,
};
use std::rc::Rc;
use std::test::Fail;

#[test]
fn a_record_is_exported_at_once(rt: HostRuntime) -> Result<(), Fail> {
    let alloc = rt.alloc();
    let exporter = InMemoryLogExporter::new(alloc);
    let mut processor = BatchLogProcessor::new(alloc, exporter, BatchConfig::default())?;
    let scope = InstrumentationScope::builder(StringValue::from("cart")).build(alloc)?;
    let mut record = SdkLogRecord::new(alloc);
    record.set_timestamp(7);
    emit(
        &mut processor,
        LogData {
            record,
            instrumentation_scope: Rc::new(alloc, scope)?,
        },
    )?;
    assert_eq!(rt; processor.queued_records(), 0);
    let logs = processor.exporter().get_emitted_logs()?;
    assert_eq!(rt; logs.len(), 1);
    Ok(())
}
