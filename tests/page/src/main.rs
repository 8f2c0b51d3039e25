//! Writes three pages, with a form feed after each: a shop's trace, hostile and many spans, and no
//! traces.
#![tactic(auto)]

use opentelemetry::trace::{
    Event, Link, SpanContext, SpanId, SpanKind, Status, TraceFlags, TraceId, TraceState,
};
use opentelemetry::{InstrumentationScope, Key, KeyValue, StringValue, Value};
use otel_sdk_span::{SpanData, SpanEvents, SpanLinks};
use otel_waterfall::{PageSpan, PageTrace, html_page};
use std::alloc::{AllocError, Global};
use std::io;
use std::rc::Rc;

/// The number of characters of the long name, and of spans of the long trace.
const LONG: usize = 100_000;

const MANY: u64 = 200;

/// Texts that would do harm if a page had them as they are. tests/page/run has the same.
const HOSTILE: [&'static str; 14] = [
    "<script>document.title='run'</script>",
    "\"><img src=x onerror=\"document.title='run'\">",
    "' autofocus onfocus='document.title=1",
    "</bdi></span></summary></details></main>",
    "<!--",
    "]]><![CDATA[",
    "&lt;b&gt; &amp;amp; &#60;",
    "</style></title><style>*{display:none}",
    "\u{202e}gnp.exe\u{2066}",
    "\u{1b}[31m\u{0}\u{7}\r",
    "a\u{2028}b\u{2029}c\u{200b}d\u{feff}",
    "line 1\n\tline 2",
    "\u{5e9}\u{5dc}\u{5d5}\u{5dd} \u{4e2d}\u{6587} \u{1f600}",
    "",
];

/// The ids of a span and its parent, its name, its start and end in milliseconds.
#[derive(Clone, Copy, Debug)]
struct Plan {
    ids: (u64, u64),
    name: &'static str,
    times: (u64, u64),
}

const BASE: u64 = 1_760_000_000_000_000_000;

fn ms(at: u64) -> u64 {
    BASE + at * 1_000_000
}

fn context(trace: u128, span: u64) -> SpanContext {
    SpanContext::new(
        TraceId::from(trace),
        SpanId::from(span),
        TraceFlags::new(1),
        false,
        TraceState::NONE,
    )
}

fn span(alloc: Global, trace: u128, plan: Plan) -> Result<SpanData, AllocError> {
    let scope = InstrumentationScope::builder(StringValue::from("page")).build(alloc)?;
    Ok(SpanData {
        span_context: context(trace, plan.ids.0),
        parent_span_id: SpanId::from(plan.ids.1),
        parent_span_is_remote: false,
        span_kind: SpanKind::Internal,
        name: StringValue::from(plan.name),
        start_time: ms(plan.times.0),
        end_time: ms(plan.times.1),
        attributes: Vec::new(alloc),
        dropped_attributes_count: 0,
        events: SpanEvents {
            events: Vec::new(alloc),
            dropped_count: 0,
        },
        links: SpanLinks {
            links: Vec::new(alloc),
            dropped_count: 0,
        },
        status: Status::Unset,
        instrumentation_scope: Rc::new(alloc, scope)?,
    })
}

fn attribute(key: &'static str, value: &'static str) -> KeyValue {
    KeyValue::new(Key::from(key), Value::from(value))
}

fn number(key: &'static str, value: i64) -> KeyValue {
    KeyValue::new(Key::from(key), Value::from(value))
}

/// Adds a span, which it gives its kind and attributes, to the shop's trace.
fn add(
    alloc: Global,
    spans: &mut Vec<PageSpan>,
    service: &'static str,
    kind: SpanKind,
    plan: Plan,
    attributes: Vec<KeyValue>,
) -> Result<(), AllocError> {
    let mut data = span(alloc, SHOP, plan)?;
    data.span_kind = kind;
    data.attributes = attributes;
    spans.push(PageSpan {
        service: StringValue::from(service),
        data,
    })?;
    Ok(())
}

const SHOP: u128 = 0x4bf92f3577b34da6a3ce929d0e0e4736;

/// The first spans of an order: the request, the cart and the stock.
fn order(alloc: Global) -> Result<Vec<PageSpan>, AllocError> {
    let mut spans = Vec::new(alloc);
    let request = vec![in alloc;
        attribute("http.request.method", "POST"),
        attribute("url.path", "/orders"),
        number("http.response.status_code", 500),
    ]?;
    let plan = Plan {
        ids: (1, 0x00f067aa0ba902b7),
        name: "POST /orders",
        times: (0, 182),
    };
    add(alloc, &mut spans, "shop", SpanKind::Server, plan, request)?;
    let plan = Plan {
        ids: (2, 1),
        name: "load cart",
        times: (4, 31),
    };
    add(
        alloc,
        &mut spans,
        "shop",
        SpanKind::Internal,
        plan,
        Vec::new(alloc),
    )?;
    let query = vec![in alloc;
        attribute("db.system.name", "postgresql"),
        attribute(
            "db.query.text",
            "SELECT item, count FROM cart WHERE owner = $1"
        ),
    ]?;
    let plan = Plan {
        ids: (3, 2),
        name: "SELECT cart",
        times: (6, 29),
    };
    add(alloc, &mut spans, "shop", SpanKind::Client, plan, query)?;
    let plan = Plan {
        ids: (4, 1),
        name: "GET /stock",
        times: (33, 78),
    };
    add(
        alloc,
        &mut spans,
        "shop",
        SpanKind::Client,
        plan,
        Vec::new(alloc),
    )?;
    let plan = Plan {
        ids: (5, 4),
        name: "GET /stock",
        times: (37, 74),
    };
    add(
        alloc,
        &mut spans,
        "stock",
        SpanKind::Server,
        plan,
        Vec::new(alloc),
    )?;
    Ok(spans)
}

/// The payment that fails, and the message after it.
fn payment(alloc: Global, spans: &mut Vec<PageSpan>) -> Result<(), AllocError> {
    let plan = Plan {
        ids: (6, 1),
        name: "POST /payments",
        times: (80, 168),
    };
    add(
        alloc,
        spans,
        "shop",
        SpanKind::Client,
        plan,
        Vec::new(alloc),
    )?;
    let card = vec![in alloc;
        attribute("payment.method", "card"),
        number("payment.amount_cents", 4990),
    ]?;
    let plan = Plan {
        ids: (7, 6),
        name: "POST /payments",
        times: (84, 163),
    };
    add(alloc, spans, "payments", SpanKind::Server, plan, card)?;
    let plan = Plan {
        ids: (8, 7),
        name: "charge card",
        times: (92, 158),
    };
    add(
        alloc,
        spans,
        "payments",
        SpanKind::Internal,
        plan,
        Vec::new(alloc),
    )?;
    let plan = Plan {
        ids: (9, 1),
        name: "publish order.failed",
        times: (170, 179),
    };
    add(
        alloc,
        spans,
        "shop",
        SpanKind::Producer,
        plan,
        Vec::new(alloc),
    )
}

/// A shop's order, whose payment fails.
fn shop(alloc: Global) -> Result<PageTrace, AllocError> {
    let mut spans = order(alloc)?;
    payment(alloc, &mut spans)?;
    spans[0].data.parent_span_is_remote = true;
    spans[0].data.status = Status::error(StringValue::from("payment failed"));
    spans[2].data.status = Status::Ok;
    spans[7].data.status = Status::error(StringValue::from("the bank didn't answer"));
    let retry = vec![in alloc; number("attempt", 2)]?;
    let retry = Event::new(StringValue::from("retry"), ms(124), retry, 0);
    spans[7].data.events.events.push(retry)?;
    let exception = vec![in alloc;
        attribute("exception.type", "Timeout"),
        attribute("exception.message", "no answer within 30 ms"),
    ]?;
    let exception = Event::new(StringValue::from("exception"), ms(157), exception, 0);
    spans[7].data.events.events.push(exception)?;
    Ok(PageTrace {
        trace_id: TraceId::from(SHOP),
        start: StringValue::from("2025-10-09 10:53:20"),
        spans,
    })
}

/// A span that has the text wherever it has a text.
fn hostile_span(alloc: Global, place: u64, text: &'static str) -> Result<PageSpan, AllocError> {
    let parent = if place == 0 { 0 } else { 1 };
    let plan = Plan {
        ids: (place + 1, parent),
        name: text,
        times: (place, 20),
    };
    let mut data = span(alloc, 2, plan)?;
    data.attributes.push(attribute(text, text))?;
    data.dropped_attributes_count = 7;
    let own = vec![in alloc; attribute(text, text)]?;
    data.events
        .events
        .push(Event::new(StringValue::from(text), ms(15), own, 0))?;
    let own = vec![in alloc; attribute(text, text)]?;
    data.links.links.push(Link::new(context(3, 4), own, 0))?;
    data.status = Status::error(StringValue::from(text));
    Ok(PageSpan {
        service: StringValue::from(text),
        data,
    })
}

/// A trace of hostile texts, and one with a long name and many spans, each under the one before.
fn hostile(alloc: Global) -> Result<Vec<PageTrace>, AllocError> {
    let mut spans = Vec::new(alloc);
    for (place, text) in HOSTILE.iter().enumerate() {
        spans.push(hostile_span(alloc, place as u64, *text)?)?;
    }
    let first = PageTrace {
        trace_id: TraceId::from(2),
        start: StringValue::from("<i>now</i>"),
        spans,
    };
    let mut spans = Vec::new(alloc);
    for place in 0..MANY {
        let plan = Plan {
            ids: (place + 1, place),
            name: "step",
            times: (place, 2 * place + 1),
        };
        spans.push(PageSpan {
            service: StringValue::from("service"),
            data: span(alloc, 5, plan)?,
        })?;
    }
    let mut long = String::new(alloc);
    for _ in 0..LONG {
        long.push('x')?;
    }
    spans[1].data.name = StringValue::from(long);
    let second = PageTrace {
        trace_id: TraceId::from(5),
        start: StringValue::from("later"),
        spans,
    };
    let mut traces = Vec::new(alloc);
    traces.push(first)?;
    traces.push(second)?;
    Ok(traces)
}

fn main(rt: HostRuntime) -> io::Result<()> {
    let alloc = rt.alloc();
    let mut shops = Vec::new(alloc);
    shops.push(shop(alloc)?)?;
    let traces = hostile(alloc)?;
    println!(rt; "{}\u{c}", html_page(alloc, shops.as_slice())?)?;
    println!(rt; "{}\u{c}", html_page(alloc, traces.as_slice())?)?;
    println!(rt; "{}\u{c}", html_page(alloc, &[])?)
}
