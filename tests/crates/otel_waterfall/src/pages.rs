//! Pages of HTML.
use crate::pictures::span;
use opentelemetry::StringValue;
use otel_ids::TraceId;
use otel_waterfall::{PageSpan, PageTrace, html_page};
use std::alloc::{AllocError, Global};
use std::test::Fail;

/// Returns a span of the shop for a page.
fn of_shop(
    alloc: Global,
    trace: u128,
    ids: (u64, u64),
    name: &'static str,
    start: u64,
) -> Result<PageSpan, AllocError> {
    Ok(PageSpan {
        service: StringValue::from("shop"),
        data: span(alloc, trace, ids, name, start, 9)?,
    })
}

/// Returns a trace of these spans.
fn trace_of(spans: Vec<PageSpan>) -> PageTrace {
    PageTrace {
        trace_id: TraceId::from(7),
        start: StringValue::from("noon"),
        spans,
    }
}

#[test]
fn rows_are_in_the_order_of_the_picture(rt: HostRuntime) -> Result<(), Fail> {
    let alloc = rt.alloc();
    let spans = vec![in alloc;
        of_shop(alloc, 7, (3, 1), "second", 6)?,
        of_shop(alloc, 7, (2, 1), "first", 5)?,
        of_shop(alloc, 8, (4, 1), "elsewhere", 5)?,
        of_shop(alloc, 7, (1, 0), "root", 4)?,
    ]?;
    let traces = vec![in alloc; trace_of(spans)]?;
    let page = html_page(alloc, traces.as_slice())?;
    let mut rows = page.as_str().split("<summary style=");
    assert!(rt;
        rows.next()
            .is_some_and(|head| head.contains("<bdi>root</bdi>"))
    );
    for name in ["<bdi>root</bdi>", "<bdi>first</bdi>", "<bdi>second</bdi>"] {
        assert!(rt; rows.next().is_some_and(|row| row.contains(name)));
    }
    assert!(rt; rows.next().is_none());
    assert!(rt; !page.contains("elsewhere"));
    Ok(())
}

#[test]
fn texts_are_escaped(rt: HostRuntime) -> Result<(), Fail> {
    let alloc = rt.alloc();
    let spans = vec![in alloc; of_shop(alloc, 7, (1, 0), "<b a='\"'>&\u{202e}", 4)?]?;
    let traces = vec![in alloc; trace_of(spans)]?;
    let page = html_page(alloc, traces.as_slice())?;
    assert!(rt; page.contains("<bdi>&lt;b a=&#39;&quot;&#39;&gt;&amp;?</bdi>"));
    assert!(rt; !page.contains("<b a="));
    Ok(())
}
