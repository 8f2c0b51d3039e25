//! Batches of spans.
use crate::rows::{SPAN, assert_ends, attribute, bytes, context, nobody, scope};
use opentelemetry::trace::{Event, Link, SpanId, SpanKind, Status};
use opentelemetry::{InstrumentationScope, StringValue, Value};
use otel_proto_batches::traces_bytes;
use otel_sdk_base::resource::Resource;
use otel_sdk_span::SpanData;
use std::alloc::Global;
use std::process::Abort;
use std::rc::Rc;
use std::test::Fail;
use test_support::span_data;

/// The tag of a `Span` in `ScopeSpans`.
const TAG: u8 = 0x12;

// A span with the rows' ids, under no parent, that has neither a name nor times.
fn bare(alloc: Global, flags: u8, state: &str) -> Result<SpanData, Fail> {
    let mut span = span_data(alloc, SPAN, flags)?;
    span.span_context = context(alloc, flags, state)?;
    span.name = StringValue::from("");
    span.start_time = 0;
    span.end_time = 0;
    Ok(span)
}

// Asserts that the batch of the span ends with this row.
fn assert_span(rt: &impl Abort, alloc: Global, span: SpanData, row: &str) -> Result<(), Fail> {
    let found = traces_bytes(alloc, &nobody(alloc), &[span])?;
    assert_ends(rt, alloc, found.as_slice(), TAG, row)
}

#[test]
fn a_whole_batch(rt: HostRuntime) -> Result<(), Fail> {
    let alloc = rt.alloc();
    let shop = Resource::builder_empty(alloc)
        .with_service_name(StringValue::from("shop"))?
        .build();
    let mut span = bare(alloc, 1, "")?;
    span.name = StringValue::from("a");
    span.start_time = 1000;
    span.end_time = 2000;
    span.attributes.push(attribute("n", Value::from(-5)))?;
    span.events
        .events
        .push(Event::with_name(alloc, StringValue::from("e"), 1500))?;
    span.links.dropped_count = 200;
    span.status = Status::error(StringValue::from("m"));
    let lib = InstrumentationScope::builder(StringValue::from("lib"))
        .with_version(StringValue::from("1"))
        .build(alloc)?;
    span.instrumentation_scope = Rc::new(alloc, lib)?;
    let found = traces_bytes(alloc, &shop, &[span])?;
    let wanted = bytes(
        alloc,
        "0a8b010a180a160a0c736572766963652e6e616d6512060a0473686f70126f0a080a036c69621201\
        3112630a100af7651916cd43dd8448eb211c80319c1208b7ad6b71692033312a0161300139e80300\
        000000000041d0070000000000004a100a016e120b18fbffffffffffffffff015a0c09dc05000000\
        00000012016570c8017a0512016d1802850101010000",
    )?;
    assert_eq!(rt; found.as_slice(), wanted.as_slice());
    Ok(())
}

#[test]
fn an_empty_batch_has_its_resource(rt: HostRuntime) -> Result<(), Fail> {
    let alloc = rt.alloc();
    let found = traces_bytes(alloc, &nobody(alloc), &[])?;
    assert_eq!(rt; found.as_slice(), b"\x0a\x02\x0a\x00".as_slice());
    Ok(())
}

// The flags of a span that isn't sampled, whose parent is local or none.
#[test]
fn ids_name_and_kind(rt: HostRuntime) -> Result<(), Fail> {
    let alloc = rt.alloc();
    let mut span = bare(alloc, 0, "")?;
    span.name = StringValue::from("a");
    assert_span(
        &rt,
        alloc,
        span,
        "0a100af7651916cd43dd8448eb211c80319c1208b7ad6b71692033312a01613001850100010000",
    )
}

#[test]
fn times(rt: HostRuntime) -> Result<(), Fail> {
    let alloc = rt.alloc();
    let mut span = bare(alloc, 0, "")?;
    span.span_kind = SpanKind::Server;
    span.start_time = 1;
    span.end_time = u64::MAX;
    assert_span(
        &rt,
        alloc,
        span,
        "0a100af7651916cd43dd8448eb211c80319c1208b7ad6b71692033313002\
        39010000000000000041ffffffffffffffff850100010000",
    )
}

#[test]
fn a_remote_parent_and_a_trace_state(rt: HostRuntime) -> Result<(), Fail> {
    let alloc = rt.alloc();
    let mut span = bare(alloc, 1, "k=v")?;
    span.span_kind = SpanKind::Client;
    span.name = StringValue::from("a");
    span.parent_span_id = SpanId::from(SPAN);
    span.parent_span_is_remote = true;
    assert_span(
        &rt,
        alloc,
        span,
        "0a100af7651916cd43dd8448eb211c80319c1208b7ad6b71692033311a036b3d762208b7ad6b7169\
        2033312a01613003850101030000",
    )
}

// The text of its header, of several pairs.
#[test]
fn a_trace_state_of_three_pairs(rt: HostRuntime) -> Result<(), Fail> {
    let alloc = rt.alloc();
    let span = bare(alloc, 0, "a=1,bb=,c=33")?;
    let found = traces_bytes(alloc, &nobody(alloc), &[span])?;
    let wanted = b"\x1a\x0ca=1,bb=,c=33\x30\x01\x85\x01\x00\x01\x00\x00";
    let end = &found[found.len() - wanted.len()..];
    assert_eq!(rt; end, wanted.as_slice());
    Ok(())
}

#[test]
fn statuses(rt: HostRuntime) -> Result<(), Fail> {
    let alloc = rt.alloc();
    let rows = [
        (Status::Unset, ""),
        (Status::Ok, "7a021801"),
        (Status::error(StringValue::from("m")), "7a0512016d1802"),
        (Status::error(StringValue::from("")), "7a021802"),
    ];
    for (status, row) in rows {
        let mut span = bare(alloc, 0, "")?;
        span.status = status;
        let found = traces_bytes(alloc, &nobody(alloc), &[span])?;
        let mut wanted = bytes(alloc, "3001")?;
        wanted.extend_from_slice(bytes(alloc, row)?.as_slice())?;
        wanted.extend_from_slice(b"\x85\x01\x00\x01\x00\x00")?;
        let end = &found[found.len() - wanted.len()..];
        assert_eq!(rt; end, wanted.as_slice());
    }
    Ok(())
}

#[test]
fn an_event(rt: HostRuntime) -> Result<(), Fail> {
    let alloc = rt.alloc();
    let given = vec![in alloc; attribute("k", Value::from(1))]?;
    let event = Event::new(StringValue::from("e"), 5, given, 3);
    let mut span = bare(alloc, 0, "")?;
    span.events.events.push(event)?;
    span.events.dropped_count = 300;
    let found = traces_bytes(alloc, &nobody(alloc), &[span])?;
    let flags = 6;
    let events = &found[..found.len() - flags];
    assert_ends(
        &rt,
        alloc,
        &events[..events.len() - 3],
        0x5a,
        "0905000000000000001201651a070a016b120218012003",
    )?;
    assert_eq!(rt; &events[events.len() - 3..], b"\x60\xac\x02".as_slice());
    Ok(())
}

#[test]
fn links(rt: HostRuntime) -> Result<(), Fail> {
    let alloc = rt.alloc();
    let mut span = bare(alloc, 0, "")?;
    let link = Link::new(context(alloc, 1, "a=1")?, Vec::new(alloc), 0);
    span.links.links.push(link)?;
    span.links.dropped_count = 2;
    let found = traces_bytes(alloc, &nobody(alloc), &[span])?;
    assert_ends(
        &rt,
        alloc,
        &found[..found.len() - 8],
        0x6a,
        "0a100af7651916cd43dd8448eb211c80319c1208b7ad6b71692033311a03613d313501010000",
    )?;
    assert_eq!(rt;
        &found[found.len() - 8..found.len() - 6],
        b"\x70\x02".as_slice()
    );
    Ok(())
}

// Names of 128 and 200 bytes, so that lengths have two bytes.
#[test]
fn two_spans_of_one_scope(rt: HostRuntime) -> Result<(), Fail> {
    let alloc = rt.alloc();
    let lib = scope(alloc, "lib")?;
    let mut spans = Vec::new(alloc);
    for (letter, count) in [("x", 128), ("y", 200)] {
        let mut span = bare(alloc, 0, "")?;
        span.name = StringValue::from(letter.repeat(alloc, count)?);
        span.instrumentation_scope = lib.clone()?;
        spans.push(span)?;
    }
    let found = traces_bytes(alloc, &nobody(alloc), spans.as_slice())?;
    let found = found.as_slice();
    let first = bytes(alloc, "0aa8030a0012a3030a050a036c696212a7010a10")?;
    assert_eq!(rt; &found[..first.len()], first.as_slice());
    let second = bytes(alloc, "12ef010a10")?;
    let at = found.len() - 242;
    assert_eq!(rt; &found[at..at + second.len()], second.as_slice());
    assert_eq!(rt; at + 242, 427);
    assert_eq!(rt; found[at + 32], 0xc8);
    Ok(())
}

// The second span of a scope joins the first, past one of another scope.
#[test]
fn scopes_in_the_order_in_which_they_first_appear(rt: HostRuntime) -> Result<(), Fail> {
    let alloc = rt.alloc();
    let (a, b) = (scope(alloc, "a")?, scope(alloc, "b")?);
    let mut spans = Vec::new(alloc);
    for (name, of) in [("1", &a), ("2", &b), ("3", &a)] {
        let mut span = bare(alloc, 0, "")?;
        span.name = StringValue::from(name);
        span.instrumentation_scope = of.clone()?;
        spans.push(span)?;
    }
    let found = traces_bytes(alloc, &nobody(alloc), spans.as_slice())?;
    let mut names = Vec::new(alloc);
    for window in found.as_slice().windows(3) {
        if window[0] == 0x2a && window[1] == 1 {
            names.push(window[2])?;
        }
    }
    assert_eq!(rt; names.as_slice(), b"132".as_slice());
    Ok(())
}

// The last value of a key at its first place, and the schema URLs of the resource and the scope.
#[test]
fn attributes_and_schema_urls_of_scopes(rt: HostRuntime) -> Result<(), Fail> {
    let alloc = rt.alloc();
    let given = vec![in alloc;
        attribute("a", Value::from(1)),
        attribute("b", Value::from(2)),
        attribute("a", Value::from(3)),
    ]?;
    let lib = InstrumentationScope::builder(StringValue::from(""))
        .with_attributes(given)
        .with_schema_url(StringValue::from("u"))
        .build(alloc)?;
    let mut span = bare(alloc, 0, "")?;
    span.instrumentation_scope = Rc::new(alloc, lib)?;
    let resource = Resource::builder_empty(alloc)
        .with_schema_url(StringValue::from("v"))
        .build();
    let found = traces_bytes(alloc, &resource, &[span])?;
    let first = b"\x0a\x44\x0a\x00\x12\x3d\x0a\x12\
        \x1a\x07\x0a\x01a\x12\x02\x18\x03\x1a\x07\x0a\x01b\x12\x02\x18\x02";
    assert_eq!(rt; &found[..first.len()], first.as_slice());
    let end = b"\x1a\x01u\x1a\x01v";
    assert_eq!(rt; &found[found.len() - end.len()..], end.as_slice());
    Ok(())
}
