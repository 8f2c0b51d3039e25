//! Calls on a log record, a logger and a provider that allocate.
use crate::lines::Lines;
use opentelemetry::logs::{AnyValue, LogRecord, Logger, LoggerProvider, Severity};
use opentelemetry::{InstrumentationScope, Key, StringValue};
use std::alloc::{AllocError, Global};
use std::marker::Model;

/// A record that stores only attributes, together with the other attributes of the same call.
#[derive(Drop)]
struct KeepingRecord {
    given: Vec<Vec<(Key, AnyValue)>>,
}

impl Model for KeepingRecord {
    ghost use Rattle.std.specs.Prelude.{ℕ, length};

    ghost Value = { ℕ };

    // The number of calls that gave it attributes.
    ghost view = { λ r. length r.given.items };
}

impl LogRecord for KeepingRecord {
    ghost use Rattle.std.specs.Prelude.{◌+◌, refl};

    ghost after_event_name = { λ r _. r };

    ghost after_target = { λ r _. r };

    ghost after_timestamp = { λ r _. r };

    ghost after_observed_timestamp = { λ r _. r };

    ghost after_severity_text = { λ r _. r };

    ghost after_severity_number = { λ r _. r };

    ghost after_body = { λ r _. r };

    ghost after_attributes = { λ r _. r + 1 };

    ghost after_attribute = { λ r _ _. r + 1 };

    fn set_event_name(&mut self, _name: &'static str) {}

    fn set_target(&mut self, _target: StringValue) {}

    fn set_timestamp(&mut self, _timestamp: u64) {}

    fn set_observed_timestamp(&mut self, _timestamp: u64) {}

    fn set_severity_text(&mut self, _text: &'static str) {}

    fn set_severity_number(&mut self, _number: Severity) {}

    fn set_body(&mut self, _body: AnyValue) {}

    fn add_attributes(
        &mut self,
        _alloc: Global,
        attributes: Vec<(Key, AnyValue)>,
    ) -> Result<(), AllocError> {
        self.given.push(attributes)?;
        Ok(())
    }

    fn add_attribute(
        &mut self,
        alloc: Global,
        key: Key,
        value: AnyValue,
    ) -> Result<(), AllocError> {
        let mut attributes = Vec::new(alloc);
        attributes.push((key, value))?;
        self.given.push(attributes)?;
        Ok(())
    }

    ghost may_be_untraced = { λ r trace_id span_id trace_flags. refl };
}

/// A logger that stores the name of its scope, and allocates for each record.
#[derive(Drop)]
struct KeepingLogger {
    name: String,
}

impl Logger for KeepingLogger {
    type LogRecord = KeepingRecord;

    ghost may_create = { λ _ _. Unit {0} };

    ghost may_enable = { λ _ _ _ _ _. Unit {0} };

    fn create_log_record(&self, alloc: Global) -> Result<KeepingRecord, AllocError> {
        let given = Vec::with_capacity(alloc, 1)?;
        Ok(KeepingRecord { given })
    }

    fn emit(&self, _record: KeepingRecord) {}

    fn event_enabled(&self, _level: Severity, _target: &str, _name: Option<&str>) -> bool {
        true
    }
}

/// A provider that allocates for each logger.
#[derive(Drop)]
struct KeepingProvider;

impl LoggerProvider for KeepingProvider {
    type Logger = KeepingLogger;

    ghost may_give = { λ _ _ _. Unit {0} };

    fn logger_with_scope(
        &self,
        alloc: Global,
        scope: InstrumentationScope,
    ) -> Result<KeepingLogger, AllocError> {
        let name = String::from_str(alloc, scope.name())?;
        Ok(KeepingLogger { name })
    }
}

/// A call.
#[derive(Clone, Copy, PartialEq)]
enum Call {
    AddAttribute,
    AddAttributes,
}

pub fn play<R: Print>(alloc: Global, lines: &Lines<'_, R>) {
    if lines.begin("log-record-add-attribute") {
        lines.end(of_record(alloc, lines, Call::AddAttribute));
    }
    if lines.begin("log-record-add-attributes") {
        lines.end(of_record(alloc, lines, Call::AddAttributes));
    }
    if lines.begin("logger-create-log-record") {
        create(alloc, lines);
    }
    if lines.begin("logger-provider-logger") {
        give(lines, KeepingProvider.logger(alloc, StringValue::from("m")));
    }
    if lines.begin("logger-provider-logger-with-scope") {
        lines.end(of_scope(alloc, lines));
    }
}

/// The attributes `k=1,l=2`.
fn attributes(alloc: Global) -> Result<Vec<(Key, AnyValue)>, AllocError> {
    let mut attributes = Vec::new(alloc);
    for (key, number) in [("k", 1), ("l", 2)] {
        attributes.push((Key::from(key), AnyValue::Int(number)))?;
    }
    Ok(attributes)
}

fn make(
    alloc: Global,
    record: &mut KeepingRecord,
    attributes: Vec<(Key, AnyValue)>,
    call: Call,
) -> Result<(), AllocError> {
    match call {
        Call::AddAttribute => record.add_attribute(alloc, Key::from("k"), AnyValue::Int(1)),
        Call::AddAttributes => record.add_attributes(alloc, attributes),
    }
}

/// Prints the answer, and whether the record has the given attributes or, after an error, none.
fn of_record<R: Print>(alloc: Global, lines: &Lines<'_, R>, call: Call) -> Result<(), AllocError> {
    let attributes = attributes(alloc)?;
    let mut record = KeepingRecord {
        given: Vec::new(alloc),
    };
    let answer = make(alloc, &mut record, attributes, call);
    let wanted = if answer.is_ok() { 1 } else { 0 };
    let is_due = record.given.len() == wanted;
    lines.answer_named("kept", answer);
    lines.due(is_due);
    Ok(())
}

fn create<R: Print>(alloc: Global, lines: &Lines<'_, R>) {
    let logger = KeepingLogger {
        name: String::new(alloc),
    };
    match logger.create_log_record(alloc) {
        Ok(record) => lines.answer(&record.given.len()),
        Err(error) => lines.answer(&error),
    }
}

/// Prints the name of the logger that a provider returned, or the error.
fn give<R: Print>(lines: &Lines<'_, R>, given: Result<KeepingLogger, AllocError>) {
    match given {
        Ok(logger) => lines.answer(&logger.name),
        Err(error) => lines.answer(&error),
    }
}

fn of_scope<R: Print>(alloc: Global, lines: &Lines<'_, R>) -> Result<(), AllocError> {
    let scope = InstrumentationScope::builder(StringValue::from("m")).build(alloc)?;
    give(lines, KeepingProvider.logger_with_scope(alloc, scope));
    Ok(())
}
