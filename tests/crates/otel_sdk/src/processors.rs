//! Several processors of one value: each is told of each span.
use crate::exports::Noted;
use crate::processor::Planned;
use opentelemetry::trace::{NotEntered, Span, SpanContext, Tracing};
use opentelemetry::{Context, Key, KeyValue, Value};
use otel_sdk::error::{OTelSdkError, OTelSdkResult};
use otel_sdk::resource::Resource;
use otel_sdk::trace::{
    BatchConfigBuilder, Build, CountedClock, CountedIdGenerator, ExporterProcessor, Exports,
    FinishedSpans, InMemorySpanExporter, Losses, OpenPipeline, ParentBased, Sampler, SdkSpan,
    SdkTracing, SpanData, SpanExporter, SpanProcessor, TracingBuilder, WithExporter, WithProcessor,
};
use std::alloc::{AllocError, Global};
use std::default::Default;
use std::rc::Rc;
use std::test::Fail;

type Pipeline = OpenPipeline<ParentBased<Sampler>, CountedIdGenerator, CountedClock>;

/// A value with two exporters.
type Twice<E, F> = SdkTracing<Pipeline, (((), ExporterProcessor<E>), ExporterProcessor<F>)>;

fn twice<E: SpanExporter, F: SpanExporter>(
    rt: HostRuntime,
    first: E,
    second: F,
) -> Result<Twice<E, F>, AllocError> {
    TracingBuilder::new(rt)
        .counted(1)
        .with_exporter(first)
        .with_exporter(second)
        .build(rt.alloc(), "cart")
}

/// Two exporters with plans.
fn planned(
    rt: HostRuntime,
    first: &'static str,
    second: &'static str,
) -> Result<Twice<Planned, Planned>, AllocError> {
    let alloc = rt.alloc();
    twice(rt, Planned::new(alloc, first), Planned::new(alloc, second))
}

/// The batches that the two exporters received.
fn logs(tracing: &Twice<Planned, Planned>) -> (&str, &str) {
    let processors = tracing.processors();
    let (first, second) = (processors.0.1.exporter(), processors.1.exporter());
    (first.log.as_str(), second.log.as_str())
}

/// Two spans: 2 ends before 1.
fn trace(tracing: &mut impl Tracing) -> Result<(), NotEntered> {
    let serve = tracing.enter("serve")?;
    let price = tracing.enter("price")?;
    tracing.exit(price);
    tracing.exit(serve);
    Ok(())
}

#[test]
fn two_exporters_get_each_span_once_in_order(rt: HostRuntime) -> Result<(), Fail> {
    let mut tracing = planned(rt, "++", "++")?;
    trace(&mut tracing)?;
    assert_eq!(rt; tracing.processors().queued_spans(), 2);
    assert_eq!(rt; logs(&tracing), ("", ""));
    tracing.flush()?;
    assert_eq!(rt; logs(&tracing), ("[2 1]", "[2 1]"));
    tracing.flush()?;
    trace(&mut tracing)?;
    assert_eq!(rt; tracing.shutdown()?, 0);
    assert_eq!(rt; logs(&tracing), ("[2 1][4 3]", "[2 1][4 3]"));
    assert_eq!(rt; tracing.processors().dropped_spans(), 0);
    Ok(())
}

#[test]
fn two_exporters_get_the_same_data(rt: HostRuntime) -> Result<(), Fail> {
    let alloc = rt.alloc();
    let (first, second) = (
        InMemorySpanExporter::new(alloc),
        InMemorySpanExporter::new(alloc),
    );
    let mut tracing = twice(rt, first, second)?;
    let serve = tracing.enter("serve")?;
    tracing.set("k", 7)?;
    tracing.record_error(&402)?;
    tracing.exit(serve);
    tracing.flush()?;
    let processors = tracing.processors();
    let first = processors.0.1.exporter().get_finished_spans()?;
    let second = processors.1.exporter().get_finished_spans()?;
    let ([first], [second]) = (first.as_slice(), second.as_slice()) else {
        return Err(Fail::from("other spans"));
    };
    assert!(rt; first.span_context == second.span_context);
    assert_eq!(rt; first.name.as_str(), second.name.as_str());
    assert_eq!(rt;
        (first.start_time, first.end_time),
        (second.start_time, second.end_time)
    );
    assert!(rt; first.attributes.as_slice() == second.attributes.as_slice());
    assert_eq!(rt; (first.attributes.len(), first.events.events.len()), (1, 1));
    assert_eq!(rt; second.events.events.len(), 1);
    Ok(())
}

#[test]
fn a_flush_reaches_the_second_exporter_if_the_first_fails(rt: HostRuntime) -> Result<(), Fail> {
    let mut tracing = planned(rt, "-+", "+")?;
    trace(&mut tracing)?;
    let answer = tracing.flush();
    assert!(rt; matches!(answer, Err(OTelSdkError::InternalFailure(_))));
    assert_eq!(rt; logs(&tracing), ("[2 1]!", "[2 1]"));
    let processors = tracing.processors();
    let queued = (processors.0.queued_spans(), processors.1.queued_spans());
    assert_eq!(rt; (queued, processors.queued_spans()), ((2, 0), 2));
    tracing.flush()?;
    assert_eq!(rt; logs(&tracing), ("[2 1]![2 1]", "[2 1]"));
    assert_eq!(rt; tracing.processors().queued_spans(), 0);
    Ok(())
}

#[test]
fn a_flush_reaches_the_first_exporter_if_the_second_fails(rt: HostRuntime) -> Result<(), Fail> {
    let mut tracing = planned(rt, "+", "-+")?;
    trace(&mut tracing)?;
    assert!(rt; tracing.flush().is_err());
    assert_eq!(rt; logs(&tracing), ("[2 1]", "[2 1]!"));
    tracing.flush()?;
    assert_eq!(rt; logs(&tracing), ("[2 1]", "[2 1]![2 1]"));
    Ok(())
}

#[test]
fn a_shutdown_leaves_no_exporter_open(rt: HostRuntime) -> Result<(), Fail> {
    let alloc = rt.alloc();
    let mut tracing = twice(rt, Noted::new(alloc), Noted::new(alloc))?;
    tracing.enter("serve")?;
    assert!(rt; !tracing.processors().is_shut_down());
    assert_eq!(rt; tracing.shutdown()?, 1);
    assert!(rt; matches!(tracing.shutdown(), Err(OTelSdkError::AlreadyShutdown)));
    assert!(rt; matches!(tracing.flush(), Err(OTelSdkError::AlreadyShutdown)));
    let processors = tracing.processors();
    assert!(rt; processors.0.1.is_shut_down() && processors.1.is_shut_down());
    assert_eq!(rt; processors.0.1.exporter().calls.as_str(), "r1fs");
    assert_eq!(rt; processors.1.exporter().calls.as_str(), "r1fs");
    Ok(())
}

#[test]
fn another_shutdown_reaches_only_the_open_exporter(rt: HostRuntime) -> Result<(), Fail> {
    let alloc = rt.alloc();
    let mut tracing = twice(rt, Planned::new(alloc, "-++"), Noted::new(alloc))?;
    trace(&mut tracing)?;
    tracing.enter("left open")?;
    assert!(rt; matches!(tracing.shutdown(), Err(OTelSdkError::InternalFailure(_))));
    let processors = tracing.processors();
    assert!(rt; !processors.0.1.is_shut_down() && processors.1.is_shut_down());
    assert!(rt; !processors.is_shut_down());
    assert_eq!(rt; tracing.open_spans(), 0);
    // A span that ends now has only one exporter left.
    trace(&mut tracing)?;
    assert_eq!(rt; tracing.processors().dropped_spans(), 2);
    tracing.flush()?;
    assert_eq!(rt; tracing.shutdown()?, 0);
    let processors = tracing.processors();
    assert_eq!(rt; processors.0.1.exporter().log.as_str(), "[2 1 3]![2 1 3 5 4]");
    assert_eq!(rt; processors.1.exporter().calls.as_str(), "r3fs");
    assert!(rt; processors.is_shut_down());
    assert!(rt; matches!(tracing.shutdown(), Err(OTelSdkError::AlreadyShutdown)));
    assert_eq!(rt; tracing.processors().1.exporter().calls.as_str(), "r3fs");
    Ok(())
}

#[test]
fn sizes_are_of_the_exporters_that_come_later(rt: HostRuntime) -> Result<(), Fail> {
    let alloc = rt.alloc();
    let sizes = |size| BatchConfigBuilder::default()
        .with_max_queue_size(size)
        .build();
    let mut tracing = TracingBuilder::new(rt)
        .counted(1)
        .with_batch_config(sizes(2))
        .with_exporter(Planned::new(alloc, "+"))
        .with_batch_config(sizes(1))
        .with_exporter(Planned::new(alloc, "++"))
        .build(alloc, "cart")?;
    trace(&mut tracing)?;
    assert_eq!(rt; tracing.processors().queued_spans(), 2);
    assert_eq!(rt; logs(&tracing), ("", "[2]"));
    tracing.flush()?;
    assert_eq!(rt; tracing.processors().dropped_spans(), 0);
    assert_eq!(rt; logs(&tracing), ("[2 1]", "[2][1]"));
    Ok(())
}

/// A processor that gives each span that begins its number as an attribute. It writes down what it
/// is told: `+` at a beginning, with the ids of the parent and the span; `-` at an end, with the
/// span's id; `?` at a loss; `f` for a flush, and `s` for a shutdown.
#[derive(Drop)]
struct Marks {
    key: &'static str,
    log: String,
    begun: i64,
    is_shut_down: bool,
}

impl Marks {
    fn new(alloc: Global, key: &'static str) -> Marks {
        Marks {
            key,
            log: String::new(alloc),
            begun: 0,
            is_shut_down: false,
        }
    }

    fn note(&mut self, kind: char, ids: &[u8]) {
        drop(self.log.push(kind));
        for id in ids {
            drop(self.log.push((b'0' + *id % 10) as char));
        }
    }
}

/// The last byte of the span's id.
fn last(context: &SpanContext) -> u8 {
    context.span_id().to_bytes()[7]
}

impl SpanProcessor for Marks {
    ghost use Rattle.std.specs.Prelude.{None, false, true};
    ghost use Rattle.otel_sdk_base.specs.Losses.{none};

    ghost calls = { record {
      starts = λ _ _ _ _ _. Unit {0};
      ends = λ _ _ _. Unit {0};
      loses = λ _ _ _. Unit {0};
      flushes = λ _ _ _. Unit {0};
      shuts_down = λ _ _ _. Unit {0};
      takes_resource = λ _ _ _. Unit {0};
      keeps_ended = λ _. true;
      is_shut_down = λ p. p.is_shut_down;
      IsEmpty = λ _. Unit {0};
      dropped = λ _. 0;
      queued = λ _. 0;
      losses = λ _. none;
      last_message = λ _. None;
      AccountsFor = λ _ _. Unit {0};
    } };

    fn on_start(&mut self, alloc: Global, span: &mut SdkSpan, parent: &Context) {
        self.begun += 1;
        let mark = KeyValue::new(Key::from(self.key), Value::I64(self.begun));
        drop(span.set_attribute(alloc, mark));
        self.note(
            '+',
            &[last(parent.span_context()), last(span.span_context())],
        );
    }

    fn keeps_ended(&self) -> bool {
        true
    }

    fn on_end(&mut self, span: SpanData) {
        self.note('-', &[last(&span.span_context)]);
    }

    fn on_loss(&mut self, span: &SpanData) {
        self.note('?', &[last(&span.span_context)]);
    }

    fn force_flush(&mut self) -> OTelSdkResult {
        self.note('f', &[]);
        Ok(())
    }

    fn shutdown(&mut self) -> OTelSdkResult {
        self.note('s', &[]);
        self.is_shut_down = true;
        Ok(())
    }

    fn is_shut_down(&self) -> bool {
        self.is_shut_down
    }

    fn dropped_spans(&self) -> u64 {
        0
    }

    fn queued_spans(&self) -> usize {
        0
    }

    fn losses(&self) -> Losses {
        Losses::default()
    }

    fn last_message(&self) -> Option<&str> {
        None
    }

    fn set_resource(&mut self, _resource: &Rc<Resource>) -> Result<(), AllocError> {
        Ok(())
    }
}

/// A span is marked before it is the current one, and its end is told once, in whatever place the
/// processor is.
#[test]
fn a_processor_marks_spans_and_is_told_of_each_end_once(rt: HostRuntime) -> Result<(), Fail> {
    let alloc = rt.alloc();
    let mut tracing = TracingBuilder::new(rt)
        .counted(1)
        .with_processor(Marks::new(alloc, "first"))
        .with_exporter(InMemorySpanExporter::new(alloc))
        .with_processor(Marks::new(alloc, "second"))
        .build(alloc, "cart")?;
    let serve = tracing.enter("serve")?;
    assert_eq!(rt; tracing.processors().1.log.as_str(), "+01");
    let price = tracing.enter("price")?;
    tracing.set("set", 2)?;
    let task = tracing.start("task")?;
    tracing.exit(price);
    tracing.exit(price);
    tracing.exit(serve);
    tracing.end(&task);
    tracing.end(&task);
    let told = "+01+12+23-2-1-3";
    assert_eq!(rt; tracing.processors().0.0.1.log.as_str(), told);
    assert_eq!(rt; tracing.processors().1.log.as_str(), told);
    tracing.flush()?;
    let spans = tracing.processors().0.1.exporter().get_finished_spans()?;
    assert_eq!(rt; spans.len(), 3);
    for span in &spans {
        let number = Value::I64(last(&span.span_context) as i64);
        for (mark, key) in span.attributes.iter().zip(["first", "second", "set"]) {
            assert!(rt; mark.key.as_str() == key && mark.value == number);
        }
    }
    assert_eq!(rt;
        (spans[0].attributes.len(), spans[1].attributes.len()),
        (3, 2)
    );
    assert_eq!(rt; tracing.shutdown()?, 0);
    assert_eq!(rt; tracing.processors().1.log.as_str(), "+01+12+23-2-1-3fs");
    tracing.accounts();
    Ok(())
}
