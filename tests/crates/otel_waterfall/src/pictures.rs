//! Pictures of batches.
use opentelemetry::StringValue;
use opentelemetry::trace::{Event, SpanContext, SpanId, Status, TraceFlags, TraceId, TraceState};
use otel_sdk::trace::{Exporter, SpanData};
use otel_waterfall::WaterfallExporter;
use std::alloc::{AllocError, Global};
use std::test::Fail;
use test_support::span_data;

/// Returns a span of the trace. `ids` are its own id and its parent's.
pub fn span(
    alloc: Global,
    trace: u128,
    ids: (u64, u64),
    name: &'static str,
    start: u64,
    end: u64,
) -> Result<SpanData, AllocError> {
    let mut span = span_data(alloc, ids.0, 3)?;
    span.span_context = SpanContext::new(
        TraceId::from(trace),
        SpanId::from(ids.0),
        TraceFlags::new(3),
        false,
        TraceState::NONE,
    );
    span.parent_span_id = SpanId::from(ids.1);
    span.name = StringValue::from(name);
    span.start_time = start;
    span.end_time = end;
    Ok(span)
}

const TRACE: u128 = 0x4bf92f3577b34da6a3ce929d0e0e4736;

const BASE: u64 = 1760000000000000000;

/// Returns a request with two spans under it, ordered by their ends.
fn cart(alloc: Global) -> Result<Vec<SpanData>, AllocError> {
    let ms = |at: u64| BASE + at * 1000000;
    let mut load = span(
        alloc,
        TRACE,
        (0xa000000000000002, 0xa000000000000001),
        "load cart",
        ms(5),
        ms(20),
    )?;
    load.events.events.push(Event::new(
        StringValue::from("cache miss"),
        ms(10),
        Vec::new(alloc),
        0,
    ))?;
    let mut price = span(
        alloc,
        TRACE,
        (0xa000000000000003, 0xa000000000000001),
        "price",
        ms(20),
        ms(40),
    )?;
    price.events.events.push(Event::new(
        StringValue::from("exception"),
        ms(38),
        Vec::new(alloc),
        0,
    ))?;
    price.status = Status::error(StringValue::from("no price"));
    let mut get = span(
        alloc,
        TRACE,
        (0xa000000000000001, 0x00f067aa0ba902b7),
        "GET /cart",
        ms(0),
        ms(45),
    )?;
    get.parent_span_is_remote = true;
    get.status = Status::error(StringValue::from(""));
    let mut batch = Vec::new(alloc);
    batch.push(load)?;
    batch.push(price)?;
    batch.push(get)?;
    Ok(batch)
}

/// Returns the picture of the batch in UTF-8, 80 columns wide.
pub fn drawn(alloc: Global, batch: &[SpanData]) -> Result<Vec<u8>, AllocError> {
    let mut exporter = WaterfallExporter::new(alloc, Vec::new(alloc));
    drop(exporter.export(batch));
    exporter.output().clone()
}

/// Returns the picture of the batch in ASCII, with this width in columns.
pub fn drawn_in_ascii(
    alloc: Global,
    width: u16,
    batch: &[SpanData],
) -> Result<Vec<u8>, AllocError> {
    let mut exporter = WaterfallExporter::new(alloc, Vec::new(alloc))
        .with_width(width)
        .with_ascii();
    drop(exporter.export(batch));
    exporter.output().clone()
}

const IN_UTF8: &str = "trace 4bf92f3577b34da6a3ce929d0e0e4736 45.0ms 3 spans
[remote 00f067aa0ba902b7]
└─ GET /cart                        45.0ms ███████████████████████████████ error
   ├─ load cart                     15.0ms    ███◆███████
   └─ price                         20.0ms              █████████████◆█    error
";

const IN_ASCII: &str = "trace 4bf92f3577b34da6a3ce929d0e0e4736 45.0ms 3 spans
[remote 00f067a~
`- GET /cart        45.0ms ======= error
   |- load cart     15.0ms =*==
   `- price         20.0ms    ==*= error
";

#[test]
fn a_request_in_utf8(rt: HostRuntime) -> Result<(), Fail> {
    let alloc = rt.alloc();
    let batch = cart(alloc)?;
    assert_eq!(rt;
        drawn(alloc, batch.as_slice())?.as_slice(),
        IN_UTF8.as_bytes()
    );
    Ok(())
}

#[test]
fn a_request_in_ascii(rt: HostRuntime) -> Result<(), Fail> {
    let alloc = rt.alloc();
    let batch = cart(alloc)?;
    for width in [0, 39, 40] {
        let text = drawn_in_ascii(alloc, width, batch.as_slice())?;
        assert_eq!(rt; text.as_slice(), IN_ASCII.as_bytes());
    }
    Ok(())
}

#[test]
fn an_instant_fills_the_first_cell(rt: HostRuntime) -> Result<(), Fail> {
    let alloc = rt.alloc();
    let batch = [span(alloc, 7, (1, 0), "now", 5, 5)?];
    let text = drawn_in_ascii(alloc, 40, &batch)?;
    let wanted = "trace 00000000000000000000000000000007 0ns 1 span
now                    0ns =
";
    assert_eq!(rt; text.as_slice(), wanted.as_bytes());
    Ok(())
}

#[test]
fn control_characters_are_not_drawn(rt: HostRuntime) -> Result<(), Fail> {
    let alloc = rt.alloc();
    let batch = [span(alloc, 7, (1, 0), "\u{1b}[31m\u{7f}\u{9f}\u{a0}é", 5, 5)?];
    let text = drawn_in_ascii(alloc, 40, &batch)?;
    let wanted = "trace 00000000000000000000000000000007 0ns 1 span
?[31m????              0ns =
";
    assert_eq!(rt; text.as_slice(), wanted.as_bytes());
    let wanted = "trace 00000000000000000000000000000007 0ns 1 span
?[31m??\u{a0}é                              0ns █
";
    assert_eq!(rt; drawn(alloc, &batch)?.as_slice(), wanted.as_bytes());
    Ok(())
}

#[test]
fn a_long_name_is_cut(rt: HostRuntime) -> Result<(), Fail> {
    let alloc = rt.alloc();
    let batch = [span(alloc, 7, (1, 0), "xxxxxxxxxxxxxxxxxxxxxxxxxxxxxxxxx", 5, 5)?];
    let wanted = "trace 00000000000000000000000000000007 0ns 1 span
xxxxxxxxxxxxxxxxxxxxxxxxxxxxxxx…       0ns █
";
    assert_eq!(rt; drawn(alloc, &batch)?.as_slice(), wanted.as_bytes());
    Ok(())
}

/// In the Unicode Standard, U+4E2D, U+6587 and U+5B57 are wide (`East_Asian_Width=W`), U+FF21 is
/// fullwidth (`F`), and U+0301 is a nonspacing mark (`General_Category=Mn`).
#[test]
fn columns_of_wide_characters_and_marks(rt: HostRuntime) -> Result<(), Fail> {
    let alloc = rt.alloc();
    let batch = [
        span(alloc, 7, (1, 0), "中文字", 5, 5)?,
        span(alloc, 7, (2, 0), "\u{ff21}b", 5, 5)?,
        span(alloc, 7, (3, 0), "e\u{301}te\u{301}", 5, 5)?,
    ];
    let wanted = "trace 00000000000000000000000000000007 0ns 3 spans
中文字                                 0ns █
\u{ff21}b                                    0ns █
e\u{301}te\u{301}                                    0ns █
";
    assert_eq!(rt; drawn(alloc, &batch)?.as_slice(), wanted.as_bytes());
    Ok(())
}

/// A name has 32 columns. A cut name keeps 31 of them, so 15 ideographs, and a space follows.
#[test]
fn a_long_wide_name_is_cut(rt: HostRuntime) -> Result<(), Fail> {
    let alloc = rt.alloc();
    let batch = [
        span(alloc, 7, (1, 0), "中中中中中中中中中中中中中中中中", 5, 5)?,
        span(alloc, 7, (2, 0), "中中中中中中中中中中中中中中中中文", 5, 5)?,
        span(alloc, 7, (3, 0), "中中中中中中中中中中中中中中中xy", 5, 5)?,
        span(alloc, 7, (4, 0), "x中中中中中中中中中中中中中中中e\u{301}f", 5, 5)?,
    ];
    let wanted = "trace 00000000000000000000000000000007 0ns 4 spans
中中中中中中中中中中中中中中中中       0ns █
中中中中中中中中中中中中中中中…        0ns █
中中中中中中中中中中中中中中中xy       0ns █
x中中中中中中中中中中中中中中中…       0ns █
";
    assert_eq!(rt; drawn(alloc, &batch)?.as_slice(), wanted.as_bytes());
    let marks = [span(
        alloc,
        7,
        (1, 0),
        "xxxxxxxxxxxxxxxxxxxxxxxxxxxxxxe\u{301}\u{302}yz",
        5,
        5,
    )?];
    let wanted = "trace 00000000000000000000000000000007 0ns 1 span
xxxxxxxxxxxxxxxxxxxxxxxxxxxxxxe\u{301}\u{302}…       0ns █
";
    assert_eq!(rt; drawn(alloc, &marks)?.as_slice(), wanted.as_bytes());
    Ok(())
}

#[test]
fn a_long_wide_name_below_branches(rt: HostRuntime) -> Result<(), Fail> {
    let alloc = rt.alloc();
    let batch = [
        span(alloc, 7, (1, 0), "根", 5, 5)?,
        span(alloc, 7, (2, 1), "中中中中中中中中中中中中中中中", 5, 5)?,
    ];
    let wanted = "trace 00000000000000000000000000000007 0ns 2 spans
根                                     0ns █
└─ 中中中中中中中中中中中中中中…       0ns █
";
    assert_eq!(rt; drawn(alloc, &batch)?.as_slice(), wanted.as_bytes());
    Ok(())
}

#[test]
fn parents_in_a_circle(rt: HostRuntime) -> Result<(), Fail> {
    let alloc = rt.alloc();
    let batch = [
        span(alloc, 7, (1, 2), "a", 5, 5)?,
        span(alloc, 7, (2, 1), "b", 5, 5)?,
    ];
    let wanted = "trace 00000000000000000000000000000007 0ns 2 spans
a                      0ns =
`- b                   0ns =
";
    assert_eq!(rt;
        drawn_in_ascii(alloc, 40, &batch)?.as_slice(),
        wanted.as_bytes()
    );
    let itself = [span(alloc, 7, (1, 1), "a", 5, 5)?];
    let wanted = "trace 00000000000000000000000000000007 0ns 1 span
a                      0ns =
";
    assert_eq!(rt;
        drawn_in_ascii(alloc, 40, &itself)?.as_slice(),
        wanted.as_bytes()
    );
    Ok(())
}

#[test]
fn an_absent_parent_has_one_row(rt: HostRuntime) -> Result<(), Fail> {
    let alloc = rt.alloc();
    let batch = [
        span(alloc, 7, (1, 8), "late", 6, 6)?,
        span(alloc, 7, (2, 0), "root", 5, 6)?,
        span(alloc, 7, (3, 8), "early", 4, 5)?,
    ];
    let wanted = "trace 00000000000000000000000000000007 2ns 3 spans
[missing 0000000000000008]
├─ early                               1ns ████████████████
└─ late                                0ns                               █
root                                   1ns                ████████████████
";
    assert_eq!(rt; drawn(alloc, &batch)?.as_slice(), wanted.as_bytes());
    Ok(())
}

#[test]
fn the_first_span_with_an_id_has_its_children(rt: HostRuntime) -> Result<(), Fail> {
    let alloc = rt.alloc();
    let batch = [
        span(alloc, 8, (1, 0), "other", 1, 1)?,
        span(alloc, 7, (2, 1), "child", 1, 1)?,
        span(alloc, 7, (1, 0), "first", 2, 2)?,
        span(alloc, 7, (1, 0), "second", 1, 1)?,
    ];
    let wanted = "trace 00000000000000000000000000000008 0ns 1 span
other                  0ns =

trace 00000000000000000000000000000007 1ns 3 spans
second                 0ns =
first                  0ns       =
`- child               0ns =
";
    assert_eq!(rt;
        drawn_in_ascii(alloc, 40, &batch)?.as_slice(),
        wanted.as_bytes()
    );
    Ok(())
}

/// Spans in a chain, each of which has a leaf. The last span of the batch is the root, and each is
/// before its parent.
#[test]
fn a_trace_of_many_spans(rt: HostRuntime) -> Result<(), Fail> {
    const LENGTH: u64 = 3000;
    let alloc = rt.alloc();
    let mut batch = Vec::new(alloc);
    for i in 0..LENGTH {
        let (number, parent) = (LENGTH - i, LENGTH - i - 1);
        batch.push(span(alloc, 7, (LENGTH + number, number), "leaf", 2, 2)?)?;
        batch.push(span(alloc, 7, (number, parent), "link", 1, 1)?)?;
    }
    let text = drawn_in_ascii(alloc, 40, batch.as_slice())?;
    let mut lines = text.as_slice().split(|byte| *byte == b'\n');
    let first = lines.next().unwrap_or(&[]);
    assert_eq!(rt;
        first,
        "trace 00000000000000000000000000000007 1ns 6000 spans".as_bytes()
    );
    let rest = String::from_utf8(text.clone()?)?;
    assert_eq!(rt; rest.matches(" link ").count() as u64, LENGTH - 1);
    assert_eq!(rt; rest.matches("leaf ").count() as u64, LENGTH);
    Ok(())
}

#[test]
fn traces_and_deep_branches(rt: HostRuntime) -> Result<(), Fail> {
    let alloc = rt.alloc();
    let batch = [
        span(alloc, 8, (1, 0), "other", 1, 1)?,
        span(alloc, 7, (5, 4), "e", 1, 1)?,
        span(alloc, 7, (4, 3), "d", 1, 1)?,
        span(alloc, 7, (3, 2), "c", 1, 1)?,
        span(alloc, 7, (2, 1), "b", 1, 1)?,
        span(alloc, 7, (6, 1), "f", 2, 2)?,
        span(alloc, 7, (1, 0), "a", 1, 1)?,
    ];
    let wanted = "trace 00000000000000000000000000000008 0ns 1 span
other                  0ns =

trace 00000000000000000000000000000007 1ns 6 spans
a                      0ns =
|- b                   0ns =
|  `- c                0ns =
|  `- d                0ns =
|  `- e                0ns =
`- f                   0ns       =
";
    assert_eq!(rt;
        drawn_in_ascii(alloc, 40, &batch)?.as_slice(),
        wanted.as_bytes()
    );
    Ok(())
}

#[test]
fn a_wide_picture(rt: HostRuntime) -> Result<(), Fail> {
    let alloc = rt.alloc();
    let output = Vec::new(alloc);
    let exporter = WaterfallExporter::new(alloc, output).with_width(120);
    let mut exporter = exporter.with_ascii();
    let batch = [span(alloc, 7, (1, 0), "a", 5, 5)?];
    assert!(rt; exporter.export(&batch).is_ok());
    let wanted = "trace 00000000000000000000000000000007 0ns 1 span
a                                                      0ns =
";
    assert_eq!(rt; exporter.output().as_slice(), wanted.as_bytes());
    Ok(())
}
