//! Log records of the SDK, and their processors.
use crate::lines::Lines;
use opentelemetry::logs::{AnyValue, LogRecord};
use opentelemetry::{InstrumentationScope, Key, StringValue};
use otel_sdk::error::{OTelSdkError, OTelSdkResult};
use otel_sdk::logs::{
    BatchConfig, BatchLogProcessor, LogData, LogProcessor, LogRecordLimits, SdkLogRecord,
    SimpleLogProcessor,
};
use otel_sdk::resource::Resource;
use otel_sdk::trace::{Exporter, Losses};
use otel_sdk_logs::RecordIntake;
use std::alloc::{AllocError, Global};
use std::cell::Cell;
use std::default::Default;
use std::rc::Rc;

pub fn play<R: Print>(alloc: Global, lines: &Lines<'_, R>) {
    if lines.begin("sdk-log-record-add-attribute") {
        let mut record = SdkLogRecord::new(alloc);
        let answer = record.add_attribute(alloc, Key::from("k"), AnyValue::Int(1));
        added(lines, &record, answer);
    }
    if lines.begin("sdk-log-record-add-attributes") {
        lines.end(add(alloc, lines));
    }
    if lines.begin("sdk-log-record-cut-attribute") {
        lines.end(cut_one(alloc, lines));
    }
    if lines.begin("sdk-log-record-cut-attributes") {
        lines.end(cut_all(alloc, lines));
    }
    if lines.begin("batch-log-processor-new") {
        let made = BatchLogProcessor::new(alloc, Sizes::new(alloc, true), BatchConfig::default());
        lines.answer_of(made.map(|processor| processor.queued_records()));
    }
    if lines.begin("batch-log-processor-force-flush") {
        lines.end(batch(alloc, lines, |processor| processor.force_flush()));
    }
    if lines.begin("batch-log-processor-shutdown") {
        lines.end(batch(alloc, lines, |processor| processor.shutdown()));
    }
    if lines.begin("record-intake-flush") {
        lines.end(batch(alloc, lines, |processor| RecordIntake::flush(processor)));
    }
    if lines.begin("record-intake-shut-down") {
        lines.end(batch(alloc, lines, |processor| RecordIntake::shut_down(processor)));
    }
    if lines.begin("simple-log-processor-new") {
        let made = SimpleLogProcessor::new(alloc, Sizes::new(alloc, true));
        lines.answer_of(made.map(|processor| processor.queued_records()));
    }
    if lines.begin("simple-log-processor-force-flush") {
        lines.end(simple(alloc, lines, |processor| processor.force_flush()));
    }
    if lines.begin("simple-log-processor-shutdown") {
        lines.end(simple(alloc, lines, |processor| processor.shutdown()));
    }
}

/// An exporter that stores the sizes of the batches, or refuses them.
#[derive(Drop)]
struct Sizes {
    sizes: Vec<usize>,
    accepts: Cell<bool>,
}

impl Sizes {
    fn new(alloc: Global, accepts: bool) -> Sizes {
        Sizes {
            sizes: Vec::new(alloc),
            accepts: Cell::new(accepts),
        }
    }
}

impl Exporter<LogData> for Sizes {
    ghost use Rattle.otel_sdk_base.specs.Export.{any_calls};

    ghost accepted = { λ _. [] };

    ghost calls = { any_calls };

    fn export(&mut self, batch: &[LogData]) -> OTelSdkResult {
        if !self.accepts.get() {
            return Err(OTelSdkError::AlreadyShutdown);
        }
        self.sizes.push(batch.len())?;
        Ok(())
    }

    fn force_flush(&mut self) -> OTelSdkResult {
        Ok(())
    }

    fn shutdown(&mut self) -> OTelSdkResult {
        Ok(())
    }

    fn set_resource(&mut self, resource: Rc<Resource>) {
        drop(resource);
    }

    fn losses(&self) -> Losses {
        Losses::default()
    }

    fn last_message(&self) -> Option<&str> {
        None
    }
}

/// A record with nothing set.
pub fn data(alloc: Global) -> Result<LogData, AllocError> {
    let scope = InstrumentationScope::builder(StringValue::from("s")).build(alloc)?;
    Ok(LogData {
        record: SdkLogRecord::new(alloc),
        instrumentation_scope: Rc::new(alloc, scope)?,
    })
}

fn added<R: Print>(lines: &Lines<'_, R>, record: &SdkLogRecord, answer: Result<(), AllocError>) {
    let is_due = record.attributes.is_empty() == answer.is_err();
    lines.answer_named("added", answer);
    lines.due(is_due);
}

fn add<R: Print>(alloc: Global, lines: &Lines<'_, R>) -> Result<(), AllocError> {
    let mut given = Vec::new(alloc);
    given.push((Key::from("k"), AnyValue::Int(1)))?;
    let mut record = SdkLogRecord::new(alloc);
    let answer = record.add_attributes(alloc, given);
    added(lines, &record, answer);
    Ok(())
}

/// A record whose values are truncated to two characters.
fn short(alloc: Global) -> SdkLogRecord {
    let limits = LogRecordLimits {
        max_attribute_length: Some(2),
        ..LogRecordLimits::default()
    };
    SdkLogRecord::with_limits(alloc, limits)
}

fn cut_one<R: Print>(alloc: Global, lines: &Lines<'_, R>) -> Result<(), AllocError> {
    let bytes = AnyValue::bytes(alloc, &[1, 2, 3])?;
    let items = AnyValue::list(alloc, vec![in alloc; AnyValue::from("value"), bytes]?)?;
    let value = AnyValue::map(alloc, vec![in alloc; (Key::from("j"), items)]?)?;
    let mut record = short(alloc);
    let answer = record.add_attribute(alloc, Key::from("k"), value);
    added(lines, &record, answer);
    Ok(())
}

fn cut_all<R: Print>(alloc: Global, lines: &Lines<'_, R>) -> Result<(), AllocError> {
    let given = vec![in alloc; (Key::from("k"), AnyValue::from("value"))]?;
    let mut record = short(alloc);
    let answer = record.add_attributes(alloc, given);
    added(lines, &record, answer);
    Ok(())
}

fn batch<R: Print, F: FnOnce(&mut BatchLogProcessor<Sizes>) -> OTelSdkResult>(
    alloc: Global,
    lines: &Lines<'_, R>,
    call: F,
) -> Result<(), AllocError> {
    let exporter = Sizes::new(alloc, true);
    let mut processor = BatchLogProcessor::new(alloc, exporter, BatchConfig::default())?;
    processor.on_emit(data(alloc)?);
    lines.free("BatchLogProcessor::on_emit", &processor.queued_records());
    let answer = call(&mut processor);
    let is_due = (processor.queued_records() == 0) == answer.is_ok();
    lines.answer_named("done", answer);
    lines.due(is_due);
    Ok(())
}

fn simple<R: Print, F: FnOnce(&mut SimpleLogProcessor<Sizes>) -> OTelSdkResult>(
    alloc: Global,
    lines: &Lines<'_, R>,
    call: F,
) -> Result<(), AllocError> {
    let mut processor = SimpleLogProcessor::new(alloc, Sizes::new(alloc, false))?;
    processor.on_emit(data(alloc)?);
    processor.exporter().accepts.set(true);
    let answer = call(&mut processor);
    let is_due = (processor.queued_records() == 0) == answer.is_ok();
    lines.answer_named("done", answer);
    lines.due(is_due);
    Ok(())
}
