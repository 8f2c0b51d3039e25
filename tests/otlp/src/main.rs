//! Lines of JSON for spans and then for log records with odd values, drawn with the numbers of
//! `Draws`.
#![tactic(auto)]

mod logs;

use opentelemetry::trace::{
    Event, Link, SpanContext, SpanId, SpanKind, Status, TraceFlags, TraceId, TraceState,
};
use opentelemetry::{Array, InstrumentationScope, Key, KeyValue, StringValue, Value};
use otel_otlp::OtlpJsonSpanExporter;
use otel_sdk_base::Exporter;
use otel_sdk_base::resource::Resource;
use otel_sdk_span::{SpanData, SpanEvents, SpanLinks};
use std::alloc::{AllocError, Global};
use std::io::{self, ErrorKind, Write};
use std::rc::Rc;

// The number of batches of up to three spans or log records.
const BATCHES: u64 = 1000;

// The number of spans or log records of the batch after them.
const MANY: u64 = 10_000;

const TEXTS: [&'static str; 8] = [
    "",
    "a",
    "\"quoted\\\"",
    "\u{0}\u{1}\u{8}\t\n\u{c}\r\u{1f}",
    "\u{7f}\u{80}\u{2028}\u{2029}",
    "\u{10ffff}\u{e9}",
    "</script>/",
    "{\"key\":null}",
];

const INTEGERS: [i64; 6] = [0, 1, -1, i64::MIN, i64::MAX, 9007199254740993];

const NUMBERS: [u64; 5] = [0, 1, 9007199254740993, 9223372036854775808, u64::MAX];

/// Pseudo-random numbers (Knuth's MMIX constants).
#[derive(Drop)]
struct Draws {
    state: u64,
}

impl Draws {
    fn below(&mut self, bound: u64) -> u64 {
        self.state = self
            .state
            .wrapping_mul(6364136223846793005)
            .wrapping_add(1442695040888963407);
        (self.state >> 33) % bound
    }

    fn text(&mut self) -> &'static str {
        TEXTS[self.below(8) as usize]
    }

    fn integer(&mut self) -> i64 {
        INTEGERS[self.below(6) as usize]
    }

    fn number(&mut self) -> u64 {
        NUMBERS[self.below(5) as usize]
    }

    fn truth(&mut self) -> bool {
        self.below(2) == 1
    }

    fn array(&mut self, alloc: Global) -> Result<Array, AllocError> {
        let (case, count) = (self.below(3), self.below(3));
        if case == 0 {
            let mut items = Vec::new(alloc);
            for _ in 0..count {
                items.push(self.truth())?;
            }
            return Ok(Array::from(items));
        }
        if case == 1 {
            let mut items = Vec::new(alloc);
            for _ in 0..count {
                items.push(self.integer())?;
            }
            return Ok(Array::from(items));
        }
        let mut items = Vec::new(alloc);
        for _ in 0..count {
            items.push(StringValue::from(self.text()))?;
        }
        Ok(Array::from(items))
    }

    fn value(&mut self, alloc: Global) -> Result<Value, AllocError> {
        Ok(match self.below(4) {
            0 => Value::from(self.truth()),
            1 => Value::from(self.integer()),
            2 => Value::from(self.text()),
            _ => Value::Array(self.array(alloc)?),
        })
    }

    fn attributes(&mut self, alloc: Global) -> Result<Vec<KeyValue>, AllocError> {
        let count = self.below(4);
        let mut items = Vec::new(alloc);
        for _ in 0..count {
            let key = Key::from(self.text());
            items.push(KeyValue::new(key, self.value(alloc)?))?;
        }
        Ok(items)
    }

    fn resource(&mut self, alloc: Global) -> Result<Resource, AllocError> {
        let key = Key::from(self.text());
        Ok(
            Resource::builder_empty(alloc)
                .with_attribute(KeyValue::new(key, self.value(alloc)?))?
                .build(),
        )
    }

    fn span_context(&mut self, alloc: Global) -> Result<SpanContext, AllocError> {
        let high = u128::from(self.number());
        let trace_id = TraceId::from((high << 64) + u128::from(self.number()));
        let span_id = SpanId::from(self.number());
        let flags = TraceFlags::new(self.below(256) as u8);
        let is_remote = self.truth();
        let text = if self.truth() { "a=1,b=2" } else { "" };
        let Ok(state) = TraceState::from_str(alloc, text) else {
            return Err(AllocError);
        };
        Ok(SpanContext::new(trace_id, span_id, flags, is_remote, state))
    }

    fn kind(&mut self) -> SpanKind {
        match self.below(5) {
            0 => SpanKind::Internal,
            1 => SpanKind::Server,
            2 => SpanKind::Client,
            3 => SpanKind::Producer,
            _ => SpanKind::Consumer,
        }
    }

    fn status(&mut self) -> Status {
        match self.below(3) {
            0 => Status::Unset,
            1 => Status::Ok,
            _ => Status::error(StringValue::from(self.text())),
        }
    }

    fn lost(&mut self) -> u32 {
        if self.truth() { u32::MAX } else { 0 }
    }

    fn events(&mut self, alloc: Global) -> Result<SpanEvents, AllocError> {
        let count = self.below(3);
        let mut events = Vec::new(alloc);
        for _ in 0..count {
            let (name, timestamp) = (StringValue::from(self.text()), self.number());
            let attributes = self.attributes(alloc)?;
            events.push(Event::new(name, timestamp, attributes, self.lost()))?;
        }
        Ok(SpanEvents {
            events,
            dropped_count: self.lost(),
        })
    }

    fn links(&mut self, alloc: Global) -> Result<SpanLinks, AllocError> {
        let count = self.below(3);
        let mut links = Vec::new(alloc);
        for _ in 0..count {
            let other = self.span_context(alloc)?;
            let attributes = self.attributes(alloc)?;
            links.push(Link::new(other, attributes, self.lost()))?;
        }
        Ok(SpanLinks {
            links,
            dropped_count: self.lost(),
        })
    }

    fn span(&mut self, alloc: Global) -> Result<SpanData, AllocError> {
        let name = StringValue::from(self.text());
        let version = StringValue::from(self.text());
        let scope = InstrumentationScope::builder(name)
            .with_version(version)
            .build(alloc)?;
        let span_context = self.span_context(alloc)?;
        let parent_span_id = SpanId::from(self.number());
        let parent_span_is_remote = self.truth();
        let span_kind = self.kind();
        let name = StringValue::from(self.text());
        let start_time = self.number();
        let end_time = self.number();
        let attributes = self.attributes(alloc)?;
        let dropped_attributes_count = self.lost();
        let events = self.events(alloc)?;
        let links = self.links(alloc)?;
        Ok(SpanData {
            span_context,
            parent_span_id,
            parent_span_is_remote,
            span_kind,
            name,
            start_time,
            end_time,
            attributes,
            dropped_attributes_count,
            events,
            links,
            status: self.status(),
            instrumentation_scope: Rc::new(alloc, scope)?,
        })
    }
}

// Exports a batch of `count` spans under a resource of its own.
fn export<W: Write + Drop>(
    alloc: Global,
    draws: &mut Draws,
    exporter: &mut OtlpJsonSpanExporter<W>,
    count: u64,
) -> io::Result<()> {
    exporter.set_resource(Rc::new(alloc, draws.resource(alloc)?)?);
    let mut batch = Vec::new(alloc);
    for _ in 0..count {
        batch.push(draws.span(alloc)?)?;
    }
    match exporter.export(batch.as_slice()) {
        Ok(()) => Ok(()),
        Err(_) => Err(io::Error::from(ErrorKind::WriteZero)),
    }
}

fn main(rt: HostRuntime) -> io::Result<()> {
    let alloc = rt.alloc();
    let mut draws = Draws { state: 1 };
    let mut exporter = OtlpJsonSpanExporter::new(alloc, rt.stdout())?;
    for _ in 0..BATCHES {
        let count = draws.below(3) + 1;
        export(alloc, &mut draws, &mut exporter, count)?;
    }
    export(alloc, &mut draws, &mut exporter, MANY)?;
    logs::write(alloc, &mut draws, rt.stdout())
}
