//! Batches of log records.
use crate::rows::{SPAN, TRACE, assert_ends, attribute, bytes, nobody, scope};
use opentelemetry::logs::{AnyValue, LogRecord, Severity};
use opentelemetry::trace::{SpanId, TraceFlags, TraceId};
use opentelemetry::{InstrumentationScope, Key, StringValue, Value};
use otel_proto_batches::logs_bytes;
use otel_sdk_base::resource::Resource;
use otel_sdk_logs::{LogData, LogRecordLimits, SdkLogRecord};
use std::alloc::{AllocError, Global};
use std::process::Abort;
use std::rc::Rc;
use std::test::Fail;

/// The tag of a `LogRecord` in `ScopeLogs`.
const TAG: u8 = 0x12;

// The record under the scope.
fn under(record: SdkLogRecord, scope: Rc<InstrumentationScope>) -> LogData {
    LogData {
        record,
        instrumentation_scope: scope,
    }
}

// Asserts that the batch of the record ends with this row.
fn assert_record(
    rt: &impl Abort,
    alloc: Global,
    record: SdkLogRecord,
    row: &str,
) -> Result<(), Fail> {
    let batch = [under(record, scope(alloc, "s")?)];
    let found = logs_bytes(alloc, &nobody(alloc), &batch)?;
    assert_ends(rt, alloc, found.as_slice(), TAG, row)
}

// A map of `a` to `true`.
fn map(alloc: Global) -> Result<AnyValue, AllocError> {
    let pairs = vec![in alloc; (Key::from("a"), AnyValue::Boolean(true))]?;
    AnyValue::map(alloc, pairs)
}

// Sets the rows' ids.
fn set_ids(record: &mut SdkLogRecord, flags: Option<TraceFlags>) {
    record.set_trace_context(TraceId::from(TRACE), SpanId::from(SPAN), flags);
}

#[test]
fn a_record(rt: HostRuntime) -> Result<(), Fail> {
    let alloc = rt.alloc();
    let mut record = SdkLogRecord::new(alloc);
    record.set_timestamp(1);
    record.set_observed_timestamp(2);
    record.set_severity_number(Severity::Info);
    record.set_severity_text("INFO");
    record.set_body(map(alloc)?);
    record.set_target(StringValue::from("t"));
    record.set_event_name("ev");
    set_ids(&mut record, Some(TraceFlags::SAMPLED));
    assert_record(
        &rt,
        alloc,
        record,
        "09010000000000000010091a04494e464f2a0b32090a070a01611202100132110a0a6c6f672e7461\
        7267657412030a017445010000004a100af7651916cd43dd8448eb211c80319c5208b7ad6b716920\
        333159020000000000000062026576",
    )
}

// A record that kept 2 attributes of 302.
fn full(alloc: Global) -> Result<SdkLogRecord, Fail> {
    let limits = LogRecordLimits {
        max_attributes_per_record: 2,
        ..LogRecordLimits::default()
    };
    let mut record = SdkLogRecord::with_limits(alloc, limits);
    record.set_timestamp(1000);
    record.set_observed_timestamp(2000);
    record.set_severity_number(Severity::Error);
    record.set_severity_text("ERROR");
    record.set_body(AnyValue::from("no price"));
    record.set_target(StringValue::from("shop::cart"));
    record.set_event_name("refused");
    let two = vec![in alloc; AnyValue::Int(1), AnyValue::from("")]?;
    let list = AnyValue::list(alloc, two)?;
    record.add_attribute(alloc, Key::from("k"), list)?;
    record.add_attribute(alloc, Key::from("n"), AnyValue::Int(-5))?;
    for _ in 0..300 {
        record.add_attribute(alloc, Key::from("more"), AnyValue::Int(0))?;
    }
    set_ids(&mut record, Some(TraceFlags::new(3)));
    Ok(record)
}

#[test]
fn a_whole_batch(rt: HostRuntime) -> Result<(), Fail> {
    let alloc = rt.alloc();
    let shop = Resource::builder_empty(alloc)
        .with_service_name(StringValue::from("shop"))?
        .with_schema_url(StringValue::from("v"))
        .build();
    let lib = InstrumentationScope::builder(StringValue::from("lib"))
        .with_version(StringValue::from("1"))
        .with_attributes(vec![in alloc; attribute("a", Value::from(1))]?)
        .with_schema_url(StringValue::from("u"))
        .build(alloc)?;
    let batch = [under(full(alloc)?, Rc::new(alloc, lib)?)];
    let found = logs_bytes(alloc, &shop, &batch)?;
    let wanted = bytes(
        alloc,
        "0acc010a180a160a0c736572766963652e6e616d6512060a0473686f7012ac010a110a036c696212\
        01311a070a01611202180112930109e80300000000000010111a054552524f522a0a0a086e6f2070\
        72696365320f0a016b120a2a080a0218010a020a0032100a016e120b18fbffffffffffffffff0132\
        1a0a0a6c6f672e746172676574120c0a0a73686f703a3a6361727438ac0245030000004a100af765\
        1916cd43dd8448eb211c80319c5208b7ad6b716920333159d0070000000000006207726566757365\
        641a01751a0176",
    )?;
    assert_eq!(rt; found.as_slice(), wanted.as_slice());
    Ok(())
}

#[test]
fn an_empty_batch_has_its_resource(rt: HostRuntime) -> Result<(), Fail> {
    let alloc = rt.alloc();
    let found = logs_bytes(alloc, &nobody(alloc), &[])?;
    assert_eq!(rt; found.as_slice(), b"\x0a\x02\x0a\x00".as_slice());
    Ok(())
}

// Nothing, and times, texts and flags that are 0 or empty.
#[test]
fn defaults_are_left_out(rt: HostRuntime) -> Result<(), Fail> {
    let alloc = rt.alloc();
    assert_record(&rt, alloc, SdkLogRecord::new(alloc), "")?;
    let mut record = SdkLogRecord::new(alloc);
    record.set_timestamp(0);
    record.set_observed_timestamp(0);
    record.set_severity_text("");
    record.set_event_name("");
    set_ids(&mut record, Some(TraceFlags::default()));
    let ids = "4a100af7651916cd43dd8448eb211c80319c5208b7ad6b7169203331";
    assert_record(&rt, alloc, record, ids)?;
    let mut record = SdkLogRecord::new(alloc);
    set_ids(&mut record, None);
    assert_record(&rt, alloc, record, ids)
}

// An empty value is written, and a body that isn't set is left out.
#[test]
fn bodies(rt: HostRuntime) -> Result<(), Fail> {
    let alloc = rt.alloc();
    let rows = [
        (AnyValue::from(""), "2a020a00"),
        (AnyValue::Boolean(false), "2a021000"),
        (AnyValue::Int(0), "2a021800"),
        (AnyValue::bytes(alloc, b"\x00\xff")?, "2a043a0200ff"),
        (AnyValue::list(alloc, Vec::new(alloc))?, "2a022a00"),
        (AnyValue::map(alloc, Vec::new(alloc))?, "2a023200"),
        (map(alloc)?, "2a0b32090a070a016112021001"),
    ];
    for (body, row) in rows {
        let mut record = SdkLogRecord::new(alloc);
        record.set_body(body);
        assert_record(&rt, alloc, record, row)?;
    }
    Ok(())
}

#[test]
fn severities(rt: HostRuntime) -> Result<(), Fail> {
    let alloc = rt.alloc();
    let rows = [
        (Severity::Trace, "1001"),
        (Severity::Warn, "100d"),
        (Severity::Fatal4, "1018"),
    ];
    for (severity, row) in rows {
        let mut record = SdkLogRecord::new(alloc);
        record.set_severity_number(severity);
        assert_record(&rt, alloc, record, row)?;
    }
    Ok(())
}

// A target is last, and left out if an attribute has its key.
#[test]
fn targets(rt: HostRuntime) -> Result<(), Fail> {
    let alloc = rt.alloc();
    let mut record = SdkLogRecord::new(alloc);
    record.set_target(StringValue::from(""));
    record.add_attribute(alloc, Key::from("k"), AnyValue::Int(1))?;
    let last = "32070a016b1202180132100a0a6c6f672e74617267657412020a00";
    assert_record(&rt, alloc, record, last)?;
    let mut record = SdkLogRecord::new(alloc);
    record.set_target(StringValue::from("t"));
    record.add_attribute(alloc, Key::from("log.target"), AnyValue::Int(1))?;
    let held = "32100a0a6c6f672e74617267657412021801";
    assert_record(&rt, alloc, record, held)
}

// A list within so many others.
fn in_lists(alloc: Global, levels: usize) -> Result<AnyValue, AllocError> {
    let mut tree = AnyValue::list(alloc, Vec::new(alloc))?;
    for _ in 0..levels {
        tree = AnyValue::list(alloc, vec![in alloc; tree]?)?;
    }
    Ok(tree)
}

// Two lists within 29 others, one of the body and one of an attribute, and one within 28.
#[test]
fn lists_within_29_others_are_cut_and_counted(rt: HostRuntime) -> Result<(), Fail> {
    let alloc = rt.alloc();
    let mut record = SdkLogRecord::new(alloc);
    record.set_body(in_lists(alloc, 29)?);
    record.add_attribute(alloc, Key::from("a"), in_lists(alloc, 29)?)?;
    record.add_attribute(alloc, Key::from("b"), in_lists(alloc, 28)?)?;
    let batch = [under(record, scope(alloc, "s")?)];
    let found = logs_bytes(alloc, &nobody(alloc), &batch)?;
    let found = found.as_slice();
    assert_eq!(rt; &found[found.len() - 2..], b"\x38\x02".as_slice());
    let cuts = found
        .windows(4)
        .filter(|part| *part == b"\x0a\x02..".as_slice());
    assert_eq!(rt; cuts.count(), 2);
    Ok(())
}

// The second record of a scope joins the first, past one of another scope.
#[test]
fn scopes_in_the_order_in_which_they_first_appear(rt: HostRuntime) -> Result<(), Fail> {
    let alloc = rt.alloc();
    let (a, b) = (scope(alloc, "a")?, scope(alloc, "b")?);
    let mut batch = Vec::new(alloc);
    for (severity, of) in [
        (Severity::Trace, &a),
        (Severity::Trace2, &b),
        (Severity::Trace3, &a),
    ] {
        let mut record = SdkLogRecord::new(alloc);
        record.set_severity_number(severity);
        batch.push(under(record, of.clone()?))?;
    }
    let found = logs_bytes(alloc, &nobody(alloc), batch.as_slice())?;
    let wanted = bytes(
        alloc,
        "0a1c0a00120d0a030a0161120210011202100312090a030a016212021002",
    )?;
    assert_eq!(rt; found.as_slice(), wanted.as_slice());
    Ok(())
}
