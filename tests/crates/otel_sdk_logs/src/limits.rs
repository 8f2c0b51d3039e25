//! Records under the limits of their provider.
use opentelemetry::logs::{AnyValue, LogRecord, Logger, LoggerProvider};
use opentelemetry::{Key, KeyValue, StringValue, Value};
use otel_sdk_base::ManualClock;
use otel_sdk_base::resource::Resource;
use otel_sdk_logs::{
    EmittedLogs, InMemoryLogExporter, LogRecordLimits, SdkLogRecord, SdkLoggerProvider,
    SimpleLogProcessor,
};
use std::alloc::{AllocError, Global};
use std::default::Default;
use std::process::Abort;
use std::test::Fail;

/// Returns a record with these limits.
fn within(alloc: Global, count: u32, length: Option<u32>) -> SdkLogRecord {
    let limits = LogRecordLimits {
        max_attributes_per_record: count,
        max_attribute_length: length,
    };
    SdkLogRecord::with_limits(alloc, limits)
}

/// Returns attributes with these keys, each with its place as the value.
fn numbered(alloc: Global, keys: &[&'static str]) -> Result<Vec<(Key, AnyValue)>, AllocError> {
    let mut given = Vec::new(alloc);
    for key in keys {
        let place = i64::try_from(given.len()).unwrap_or(-1);
        given.push((Key::from(*key), AnyValue::Int(place)))?;
    }
    Ok(given)
}

/// Asserts that the record has these attributes, in order, and this count of dropped ones.
fn assert_holds(rt: &impl Abort, record: &SdkLogRecord, wanted: &[(&str, i64)], dropped: u32) {
    assert_eq!(rt; record.attributes.len(), wanted.len());
    for (is, wanted) in record.attributes.iter().zip(wanted.iter()) {
        assert_eq!(rt; is.0.as_str(), wanted.0);
        assert!(rt; is.1 == AnyValue::Int(wanted.1));
    }
    assert_eq!(rt; record.dropped_attributes_count, dropped);
}

#[test]
fn the_first_attributes_stay(rt: HostRuntime) -> Result<(), Fail> {
    let alloc = rt.alloc();
    let mut record = within(alloc, 2, None);
    record.add_attribute(alloc, Key::from("a"), AnyValue::Int(7))?;
    assert_holds(&rt, &record, &[("a", 7)], 0);
    record.add_attribute(alloc, Key::from("b"), AnyValue::Int(8))?;
    assert_holds(&rt, &record, &[("a", 7), ("b", 8)], 0);
    record.add_attribute(alloc, Key::from("c"), AnyValue::Int(9))?;
    assert_holds(&rt, &record, &[("a", 7), ("b", 8)], 1);
    record.add_attribute(alloc, Key::from("a"), AnyValue::Int(5))?;
    assert_holds(&rt, &record, &[("a", 5), ("b", 8)], 1);
    record.add_attributes(alloc, numbered(alloc, &["d", "b", "d", "e"])?)?;
    assert_holds(&rt, &record, &[("a", 5), ("b", 1)], 4);
    let mut given = within(alloc, 2, None);
    given.add_attributes(alloc, numbered(alloc, &["a", "b", "c"])?)?;
    assert_holds(&rt, &given, &[("a", 0), ("b", 1)], 1);
    Ok(())
}

#[test]
fn a_limit_may_be_zero_or_over_128(rt: HostRuntime) -> Result<(), Fail> {
    let alloc = rt.alloc();
    let mut none = within(alloc, 0, None);
    none.add_attributes(alloc, numbered(alloc, &["a", "b"])?)?;
    none.add_attribute(alloc, Key::from("a"), AnyValue::Int(1))?;
    assert_holds(&rt, &none, &[], 3);
    let mut many = within(alloc, 130, None);
    for number in 0..131 {
        let key = Key::from(format!(in alloc; "{number}")?);
        many.add_attribute(alloc, key, AnyValue::Int(number))?;
    }
    assert_eq!(rt; many.attributes.len(), 130);
    assert_eq!(rt; many.dropped_attributes_count, 1);
    many.dropped_attributes_count = u32::MAX;
    many.add_attribute(alloc, Key::from("k"), AnyValue::Int(1))?;
    assert_eq!(rt; many.dropped_attributes_count, u32::MAX);
    Ok(())
}

/// Returns the value truncated to a limit on the length.
fn cut(rt: &impl Abort, alloc: Global, length: u32, value: AnyValue) -> AnyValue {
    let mut record = within(alloc, 1, Some(length));
    let answer = record.add_attribute(alloc, Key::from("key"), value);
    assert!(rt; answer.is_ok());
    assert_eq!(rt; record.dropped_attributes_count, 0);
    let (key, value) = record.attributes.pop().expect(rt, "an attribute");
    assert_eq!(rt; key.as_str(), "key");
    value
}

#[test]
fn texts_are_truncated_to_characters(rt: HostRuntime) -> Result<(), Fail> {
    let alloc = rt.alloc();
    for (length, wanted) in [(0, ""), (1, "h"), (2, "h\u{e9}"), (4, "h\u{e9}\u{10348}l")] {
        let is = cut(&rt, alloc, length, AnyValue::from("h\u{e9}\u{10348}lo"));
        assert!(rt; is == AnyValue::from(wanted));
    }
    for length in [5, 6, u32::MAX] {
        let owned = AnyValue::from(String::from_str(alloc, "h\u{e9}\u{10348}lo")?);
        assert!(rt; cut(&rt, alloc, length, owned) == AnyValue::from("h\u{e9}\u{10348}lo"));
    }
    assert!(rt; cut(&rt, alloc, 0, AnyValue::Int(-12)) == AnyValue::Int(-12));
    assert!(rt; cut(&rt, alloc, 0, AnyValue::Boolean(true)) == AnyValue::Boolean(true));
    for (length, wanted) in [
        (0, &[1, 2, 3][..0]),
        (2, &[1, 2]),
        (3, &[1, 2, 3]),
        (4, &[1, 2, 3]),
    ] {
        let is = cut(&rt, alloc, length, AnyValue::bytes(alloc, &[1, 2, 3])?);
        assert!(rt; is == AnyValue::bytes(alloc, wanted)?);
    }
    Ok(())
}

/// Returns a tree with this text and these bytes within a list and a map.
fn nested(alloc: Global, text: &'static str, bytes: &[u8]) -> Result<AnyValue, AllocError> {
    let items = vec![in alloc; AnyValue::from(text), AnyValue::bytes(alloc, bytes)?]?;
    let inner = AnyValue::map(
        alloc,
        vec![in alloc;
            (Key::from("long"), AnyValue::list(alloc, items)?),
            (Key::from("words"), AnyValue::from(text)),
        ]?,
    )?;
    AnyValue::list(
        alloc,
        vec![in alloc; AnyValue::Int(123), inner, AnyValue::from(text)]?,
    )
}

#[test]
fn texts_in_lists_and_maps_are_truncated(rt: HostRuntime) -> Result<(), Fail> {
    let alloc = rt.alloc();
    let is = cut(
        &rt,
        alloc,
        2,
        nested(alloc, "\u{e9}\u{e9}\u{e9}", &[5, 6, 7])?,
    );
    assert!(rt; is == nested(alloc, "\u{e9}\u{e9}", &[5, 6])?);
    let is = cut(&rt, alloc, 3, nested(alloc, "abc", &[5, 6, 7])?);
    assert!(rt; is == nested(alloc, "abc", &[5, 6, 7])?);
    let mut record = within(alloc, 2, Some(1));
    let given = vec![in alloc;
        (Key::from("ab"), AnyValue::from("cd")),
        (Key::from("ac"), AnyValue::from("ef")),
        (Key::from("ab"), AnyValue::from("gh")),
    ]?;
    record.add_attributes(alloc, given)?;
    assert_eq!(rt; record.attributes.len(), 2);
    assert_eq!(rt; record.attributes[0].0.as_str(), "ab");
    assert!(rt; record.attributes[0].1 == AnyValue::from("g"));
    assert!(rt; record.attributes[1].1 == AnyValue::from("e"));
    assert_eq!(rt; record.dropped_attributes_count, 0);
    record.set_body(AnyValue::from("whole"));
    assert!(rt; record.body == Some(AnyValue::from("whole")));
    Ok(())
}

#[test]
fn a_provider_s_records_have_its_limits(rt: HostRuntime) -> Result<(), Fail> {
    let alloc = rt.alloc();
    let limits = LogRecordLimits {
        max_attributes_per_record: 1,
        ..LogRecordLimits::default()
    };
    let resource = Resource::builder_empty(alloc)
        .with_attribute(KeyValue::new(Key::from("r"), Value::from("whole")))?
        .build();
    let provider = SdkLoggerProvider::builder(rt)
        .with_log_record_limits(limits)
        .with_max_attribute_length(3)
        .with_max_attributes_per_record(2)
        .with_log_processor(SimpleLogProcessor::new(alloc, InMemoryLogExporter::new(alloc))?)
        .with_clock(ManualClock::new(5))
        .with_resource(resource)?
        .build(alloc)?;
    let logger = provider.logger(alloc, StringValue::from("tests"))?;
    let mut record = logger.create_log_record(alloc)?;
    record.add_attribute(alloc, Key::from("a"), AnyValue::from("long"))?;
    record.add_attributes(alloc, numbered(alloc, &["b", "c"])?)?;
    logger.emit(record);
    let processor = provider.processor().ok().expect(&rt, "an idle processor");
    let records = processor.exporter().get_emitted_logs()?;
    let mut emitted = records[0].record.clone()?;
    assert_eq!(rt; emitted.attributes.len(), 2);
    assert!(rt; emitted.attributes[0].1 == AnyValue::from("lon"));
    assert_eq!(rt; emitted.attributes[1].0.as_str(), "b");
    assert_eq!(rt; emitted.dropped_attributes_count, 1);
    emitted.add_attribute(alloc, Key::from("d"), AnyValue::Int(1))?;
    emitted.add_attribute(alloc, Key::from("b"), AnyValue::from("long"))?;
    assert_eq!(rt; emitted.attributes.len(), 2);
    assert!(rt; emitted.attributes[1].1 == AnyValue::from("lon"));
    assert_eq!(rt; emitted.dropped_attributes_count, 2);
    assert!(rt; provider.resource().get("r") == Some(&Value::from("whole")));
    Ok(())
}

#[test]
fn without_limits_a_provider_has_the_default_ones(rt: HostRuntime) -> Result<(), Fail> {
    let alloc = rt.alloc();
    assert_eq!(rt; LogRecordLimits::default().max_attributes_per_record, 128);
    assert_eq!(rt; LogRecordLimits::default().max_attribute_length, None);
    let provider = SdkLoggerProvider::builder(rt)
        .with_log_processor(SimpleLogProcessor::new(alloc, InMemoryLogExporter::new(alloc))?)
        .build(alloc)?;
    let logger = provider.logger(alloc, StringValue::from("tests"))?;
    let mut record = logger.create_log_record(alloc)?;
    for number in 0..129 {
        let key = Key::from(format!(in alloc; "{number}")?);
        record.add_attribute(alloc, key, AnyValue::Int(number))?;
    }
    assert_eq!(rt; record.attributes.len(), 128);
    assert_eq!(rt; record.dropped_attributes_count, 1);
    Ok(())
}
