//! Records sent through the sink.
use log::{Level, Log, Logged, Metadata, debug, error, info, trace, warn};
use opentelemetry::logs::{AnyValue, Severity};
use opentelemetry::trace::{SpanContext, SpanId, TraceFlags, TraceId, TraceState};
use opentelemetry::{Context, InstrumentationScope, StringValue};
use otel_appender_log::{
    OpenTelemetryLogBridge, SourceLocation, bridged_record, severity_of_level,
};
use otel_examples::recording::RecordingLogger;
use otel_sdk_logs::SdkLogRecord;
use std::alloc::{AllocError, Global};
use std::fmt;
use std::process::Abort;
use std::test::Fail;

type Bridge = OpenTelemetryLogBridge<RecordingLogger>;

/// Returns a bridge to a logger that accepts records with at least this severity.
fn bridge(alloc: Global, least: Severity) -> Result<Bridge, AllocError> {
    let scope = InstrumentationScope::builder(StringValue::from("app")).build(alloc)?;
    Ok(OpenTelemetryLogBridge::new(alloc, RecordingLogger::new(alloc, scope, least)))
}

/// Returns a context whose active span has these ids and the flags 03.
fn context(alloc: Global, trace: u128, span: u64) -> Result<Context, AllocError> {
    let span_context = SpanContext::new(
        TraceId::from(trace),
        SpanId::from(span),
        TraceFlags::new(3),
        false,
        TraceState::NONE,
    );
    Context::new().with_remote_span_context(alloc, span_context)
}

/// Returns a context whose active span has the ids 7, these flags and this origin.
fn span_context(alloc: Global, flags: u8, is_remote: bool) -> Result<Context, AllocError> {
    let span_context = SpanContext::new(
        TraceId::from(7),
        SpanId::from(7),
        TraceFlags::new(flags),
        is_remote,
        TraceState::NONE,
    );
    Context::new().with_remote_span_context(alloc, span_context)
}

/// Returns the only record that the bridge emitted.
fn only_record(rt: &impl Abort, bridge: Bridge) -> SdkLogRecord {
    assert_eq!(rt; bridge.dropped_records(), 0);
    let mut emitted = bridge.into_logger().into_emitted();
    assert_eq!(rt; emitted.len(), 1);
    emitted.pop().expect(rt, "a record")
}

/// Asserts that the record has these attributes, in order.
fn assert_attributes(rt: &impl Abort, record: &SdkLogRecord, wanted: &[(&str, AnyValue)]) {
    assert_eq!(rt; record.attributes.len(), wanted.len());
    for (is, wanted) in record.attributes.iter().zip(wanted.iter()) {
        assert_eq!(rt; is.0.as_str(), wanted.0);
        assert!(rt; is.1 == wanted.1);
    }
}

#[test]
fn a_record_has_all_that_is_known(rt: HostRuntime) -> Result<(), Fail> {
    let alloc = rt.alloc();
    let bridge = bridge(alloc, Severity::Trace)?;
    let context = context(alloc, 1, 1)?;
    let logger = Logged::new(rt, Level::Trace, bridge.sink(&context));
    error!(logger; target: "cart::price", item = 7, ok = false; "no price for {}", 7);
    let record = only_record(&rt, bridge);
    assert_eq!(rt; record.severity_number, Some(Severity::Error));
    assert!(rt; record.severity_text == Some(StringValue::from("ERROR")));
    assert!(rt; record.target == Some(StringValue::from("cart::price")));
    assert!(rt; record.body == Some(AnyValue::from("no price for 7")));
    assert_attributes(
        &rt,
        &record,
        &[("item", AnyValue::Int(7)), ("ok", AnyValue::Boolean(false))],
    );
    assert_eq!(rt; record.timestamp, None);
    assert_eq!(rt; record.observed_timestamp, None);
    assert!(rt; record.event_name.is_none());
    let span = record.trace_context.expect(&rt, "a span");
    assert_eq!(rt; span.trace_id, TraceId::from(1));
    assert_eq!(rt; span.span_id, SpanId::from(1));
    assert_eq!(rt; span.trace_flags, Some(TraceFlags::new(3)));
    Ok(())
}

#[test]
fn a_warning_is_handed_on(host: HostRuntime) -> Result<(), Fail> {
    let (alloc, rt) = (host.alloc(), host);
    let scope = InstrumentationScope::builder(StringValue::from("app")).build(alloc)?;
    let logger = RecordingLogger::new(alloc, scope, Severity::Info);
    let context = Context::new();
    let bridge = OpenTelemetryLogBridge::new(alloc, logger);
    let rt = Logged::new(rt, Level::Info, bridge.sink(&context));
    warn!(rt; target: "cart", item = 7; "no price");
    let record = only_record(&host, bridge);
    assert!(host; record.target == Some(StringValue::from("cart")));
    Ok(())
}

#[test]
fn an_invalid_span_is_not_named(rt: HostRuntime) -> Result<(), Fail> {
    let alloc = rt.alloc();
    let without = Context::new();
    for context in [context(alloc, 1, 0)?, context(alloc, 0, 1)?, without] {
        let bridge = bridge(alloc, Severity::Trace)?;
        let logger = Logged::new(rt, Level::Trace, bridge.sink(&context));
        info!(logger; "started");
        assert!(rt; only_record(&rt, bridge).trace_context.is_none());
    }
    Ok(())
}

#[test]
fn unsampled_and_remote_spans_are_named(rt: HostRuntime) -> Result<(), Fail> {
    let alloc = rt.alloc();
    for (flags, is_remote) in [(0, false), (0, true), (1, true), (2, false)] {
        let context = span_context(alloc, flags, is_remote)?;
        let bridge = bridge(alloc, Severity::Trace)?;
        let logger = Logged::new(rt, Level::Trace, bridge.sink(&context));
        info!(logger; "started");
        let span = only_record(&rt, bridge).trace_context.expect(&rt, "a span");
        assert_eq!(rt; span.trace_id, TraceId::from(7));
        assert_eq!(rt; span.span_id, SpanId::from(7));
        assert_eq!(rt; span.trace_flags, Some(TraceFlags::new(flags)));
    }
    Ok(())
}

#[test]
fn each_record_is_emitted_once_in_order(rt: HostRuntime) -> Result<(), Fail> {
    let alloc = rt.alloc();
    let bridge = bridge(alloc, Severity::Trace)?;
    let context = Context::new();
    let logger = Logged::new(rt, Level::Trace, bridge.sink(&context));
    info!(logger; "1");
    warn!(logger; "2");
    info!(logger; "1");
    assert_eq!(rt; bridge.dropped_records(), 0);
    let emitted = bridge.into_logger().into_emitted();
    assert_eq!(rt; emitted.len(), 3);
    for (record, body) in emitted.iter().zip(["1", "2", "1"].iter()) {
        assert!(rt; record.body == Some(AnyValue::from(*body)));
    }
    Ok(())
}

#[test]
fn suppressed_telemetry_emits_nothing(rt: HostRuntime) -> Result<(), Fail> {
    let alloc = rt.alloc();
    let bridge = bridge(alloc, Severity::Trace)?;
    let context = context(alloc, 1, 1)?;
    let suppressed = context.with_telemetry_suppressed(alloc)?;
    let sink = bridge.sink(&suppressed);
    assert!(rt; !sink.enabled(&Metadata::new(Level::Error, "t")));
    // `Logged` doesn't ask `enabled` of its sink.
    let record = log::Record::new(Metadata::new(Level::Error, "t"), "m", (), ());
    sink.log(&record);
    let logger = Logged::new(rt, Level::Trace, sink);
    error!(logger; "m");
    assert_eq!(rt; bridge.dropped_records(), 0);
    assert!(rt;
        bridge
            .sink(&context)
            .enabled(&Metadata::new(Level::Error, "t"))
    );
    bridge.sink(&context).log(&record);
    assert_eq!(rt; bridge.into_logger().into_emitted().len(), 1);
    Ok(())
}

#[test]
fn levels_are_severities(rt: HostRuntime) -> Result<(), Fail> {
    let rows = [
        (Level::Error, 17, "ERROR"),
        (Level::Warn, 13, "WARN"),
        (Level::Info, 9, "INFO"),
        (Level::Debug, 5, "DEBUG"),
        (Level::Trace, 1, "TRACE"),
    ];
    for (level, number, name) in rows {
        assert_eq!(rt; severity_of_level(level).number(), number);
        assert_eq!(rt; severity_of_level(level).name(), name);
    }
    Ok(())
}

#[test]
fn only_records_that_the_logger_wants(rt: HostRuntime) -> Result<(), Fail> {
    let alloc = rt.alloc();
    let bridge = bridge(alloc, Severity::Warn)?;
    let context = Context::new();
    let logger = Logged::new(rt, Level::Trace, bridge.sink(&context));
    assert!(rt; !logger.enabled(&Metadata::new(Level::Info, "t")));
    assert!(rt; logger.enabled(&Metadata::new(Level::Warn, "t")));
    trace!(logger; "1");
    debug!(logger; "2");
    info!(logger; "3");
    warn!(logger; "4");
    error!(logger; "5");
    assert_eq!(rt; bridge.dropped_records(), 0);
    let emitted = bridge.into_logger().into_emitted();
    assert_eq!(rt; emitted.len(), 2);
    assert!(rt; emitted[0].body == Some(AnyValue::from("4")));
    assert!(rt; emitted[1].body == Some(AnyValue::from("5")));
    Ok(())
}

/// A text that can't be printed.
#[derive(Drop)]
struct Silent;

impl fmt::Display for Silent {
    fn fmt<W: fmt::Write>(&self, _f: &mut fmt::Formatter<W>) -> fmt::Result {
        Err(fmt::Error)
    }
}

#[test]
fn a_record_that_does_not_print_is_counted_once(rt: HostRuntime) -> Result<(), Fail> {
    let alloc = rt.alloc();
    let bridge = bridge(alloc, Severity::Info)?;
    let context = Context::new();
    let sink = bridge.sink(&context);
    for count in 1..4 {
        let metadata = Metadata::new(Level::Info, "t");
        sink.log(&log::Record::new(metadata, Silent, (), ()));
        assert_eq!(rt; bridge.dropped_records(), count);
    }
    let unwanted = Metadata::new(Level::Debug, "t");
    sink.log(&log::Record::new(unwanted, Silent, (), ()));
    assert_eq!(rt; bridge.dropped_records(), 3);
    assert!(rt; bridge.into_logger().into_emitted().is_empty());
    Ok(())
}

#[test]
fn the_fields_of_spans_are_left_out(rt: HostRuntime) -> Result<(), Fail> {
    let alloc = rt.alloc();
    let bridge = bridge(alloc, Severity::Trace)?;
    let context = Context::new();
    let logger = Logged::new(rt, Level::Trace, bridge.sink(&context));
    let inner = logger.span("request").with("id", 7);
    info!(inner; "started");
    let record = only_record(&rt, bridge);
    assert_attributes(&rt, &record, &[]);
    Ok(())
}

/// Returns a location in the file, at the line, in the module `cart::price`.
fn place(file: Option<&str>, line: Option<u32>) -> SourceLocation<'_> {
    SourceLocation {
        file,
        line,
        module: Some("cart::price"),
    }
}

#[test]
fn a_known_place_comes_last(rt: HostRuntime) -> Result<(), Fail> {
    let alloc = rt.alloc();
    let bridge = bridge(alloc, Severity::Trace)?;
    let context = Context::new();
    let mut sink = bridge.sink(&context);
    sink.location = place(Some("src/price.rs"), Some(41));
    let logger = Logged::new(rt, Level::Trace, sink);
    info!(logger; item = 7; "m");
    let record = only_record(&rt, bridge);
    assert_attributes(
        &rt,
        &record,
        &[
            ("item", AnyValue::Int(7)),
            ("code.file.path", AnyValue::from("src/price.rs")),
            ("code.line.number", AnyValue::Int(41)),
            ("code.namespace", AnyValue::from("cart::price")),
        ],
    );
    Ok(())
}

#[test]
fn a_key_that_is_there_stays(rt: HostRuntime) -> Result<(), Fail> {
    let alloc = rt.alloc();
    let bridge = bridge(alloc, Severity::Trace)?;
    let context = Context::new();
    let mut sink = bridge.sink(&context);
    sink.location = place(None, Some(41));
    let logger = Logged::new(rt, Level::Trace, sink);
    info!(logger; "code.line.number" = 1; "m");
    let record = only_record(&rt, bridge);
    assert_attributes(
        &rt,
        &record,
        &[
            ("code.line.number", AnyValue::Int(1)),
            ("code.namespace", AnyValue::from("cart::price")),
        ],
    );
    Ok(())
}

#[test]
fn a_text_that_prints_as_null_stays(rt: HostRuntime) -> Result<(), Fail> {
    let alloc = rt.alloc();
    let bridge = bridge(alloc, Severity::Trace)?;
    let context = Context::new();
    let logger = Logged::new(rt, Level::Trace, bridge.sink(&context));
    info!(logger; owner = "None", price = None::<u8>, heir = Some("None"); "m");
    let record = only_record(&rt, bridge);
    assert_attributes(
        &rt,
        &record,
        &[
            ("owner", AnyValue::from("None")),
            ("heir", AnyValue::from("None")),
        ],
    );
    Ok(())
}

#[test]
fn a_record_is_made_by_hand(rt: HostRuntime) -> Result<(), Fail> {
    let alloc = rt.alloc();
    let bridge = bridge(alloc, Severity::Info)?;
    let source = log::Record::new(Metadata::new(Level::Info, "t"), "m", ("k", "v"), ());
    let nowhere = SourceLocation::UNKNOWN;
    let made = bridged_record(alloc, &bridge.logger, &source, &nowhere, &SpanContext::NONE)?;
    let record = made.expect(&rt, "a record");
    assert!(rt; record.body == Some(AnyValue::from("m")));
    assert_attributes(&rt, &record, &[("k", AnyValue::from("v"))]);
    Ok(())
}
