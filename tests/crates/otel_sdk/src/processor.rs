//! The batches that processors hand to an exporter: worked runs.
use otel_sdk::error::{OTelSdkError, OTelSdkResult};
use otel_sdk::resource::Resource;
use otel_sdk::trace::{
    BatchConfigBuilder, BatchSpanProcessor, Exporter, FinishedSpans, InMemorySpanExporter, Losses,
    SimpleSpanProcessor, SpanData, SpanProcessor,
};
use std::alloc::{AllocError, Global};
use std::default::Default;
use std::rc::Rc;
use std::test::Fail;
use test_support::span_data;

/// An exporter with a plan. It accepts a batch at `+`, and otherwise refuses it. It writes down the
/// spans' numbers of each batch in brackets, with a `!` if it refuses the batch.
#[derive(Drop)]
pub struct Planned {
    kept: InMemorySpanExporter,
    plan: &'static [u8],
    pub log: String,
    pub fails_to_flush: bool,
    pub flushes: u8,
}

impl Planned {
    pub fn new(alloc: Global, plan: &'static str) -> Planned {
        Planned {
            kept: InMemorySpanExporter::new(alloc),
            plan: plan.as_bytes(),
            log: String::new(alloc),
            fails_to_flush: false,
            flushes: 0,
        }
    }
}

impl Exporter<SpanData> for Planned {
    ghost use Rattle.otel_sdk_base.specs.Export.{any_calls};

    ghost accepted = { λ e. e.kept.accepted };

    ghost calls = { any_calls };

    fn export(&mut self, batch: &[SpanData]) -> OTelSdkResult {
        let mut gap = "[";
        for span in batch {
            self.log.push_str(gap)?;
            let number = span.span_context.span_id().to_bytes()[7];
            self.log.push((b'0' + number % 10) as char)?;
            gap = " ";
        }
        self.log.push(']')?;
        let [first, rest @ ..] = self.plan else {
            return Err(OTelSdkError::AlreadyShutdown);
        };
        let accepts = *first == b'+';
        self.plan = rest;
        if accepts {
            return self.kept.export(batch);
        }
        self.log.push('!')?;
        Err(OTelSdkError::InternalFailure(String::new(*self.log.allocator())))
    }

    fn force_flush(&mut self) -> OTelSdkResult {
        self.flushes = self.flushes.saturating_add(1);
        if self.fails_to_flush {
            return Err(OTelSdkError::InternalFailure(String::new(*self.log.allocator())));
        }
        self.kept.force_flush()
    }

    fn shutdown(&mut self) -> OTelSdkResult {
        self.kept.shutdown()
    }

    fn set_resource(&mut self, resource: Rc<Resource>) {
        drop(resource);
    }

    fn losses(&self) -> Losses {
        Losses::default()
    }

    fn last_message(&self) -> Option<&str> {
        None
    }
}

/// Writes down the error of a call: `closed` or `failed`.
pub fn report(errors: &mut String, error: &OTelSdkError) -> Result<(), AllocError> {
    errors.push_str(match error {
        OTelSdkError::AlreadyShutdown => " closed",
        _ => " failed",
    })
}

/// Makes the calls of a script: `e1` hands over the sampled span 1, and `u1` an unsampled one; `f`
/// flushes, and `s` shuts down. Returns the errors.
fn played<P: SpanProcessor>(
    alloc: Global,
    processor: &mut P,
    script: &'static str,
) -> Result<String, Fail> {
    let mut errors = String::new(alloc);
    for call in script.split(' ') {
        let error = match call.as_bytes() {
            [b'f'] => processor.force_flush().err(),
            [b's'] => processor.shutdown().err(),
            [kind, number] => {
                let flags = if *kind == b'e' { 3 } else { 2 };
                let span = span_data(alloc, (*number - b'0') as u64, flags)?;
                processor.on_end(span);
                None
            }
            _ => None,
        };
        if let Some(error) = error {
            report(&mut errors, &error)?;
        }
    }
    Ok(errors)
}

/// The limits of the queue and of a batch, the exporter's plan, the calls; the batches that the
/// exporter receives, the errors, and the numbers of spans that are left in the queue and that were
/// dropped.
type Row = (
    usize,
    usize,
    &'static str,
    &'static str,
    &'static str,
    &'static str,
    usize,
    u64,
);

const RUNS: &[Row] = &[
    (4, 2, "++", "e1 e2 e3 f", "[1 2][3]", "", 0, 0),
    (4, 2, "-++", "e1 e2 e3 f", "[1 2]!", " failed", 3, 0),
    (
        4,
        2,
        "-++",
        "e1 e2 e3 f f",
        "[1 2]![1 2][3]",
        " failed",
        0,
        0,
    ),
    (
        4,
        2,
        "+-+",
        "e1 e2 e3 f e4 f",
        "[1 2][3]![3 4]",
        " failed",
        0,
        0,
    ),
    (
        4,
        2,
        "+++",
        "e1 e2 e3 e4 e5 e6 f",
        "[1 2][3 4][5 6]",
        "",
        0,
        0,
    ),
    (
        4,
        2,
        "-++",
        "e1 e2 e3 e4 f e5 f",
        "[1 2]![1 2][3 4]",
        " failed",
        0,
        1,
    ),
    (4, 2, "-+", "e1 s e2 s", "[1]![1 2]", " failed", 0, 0),
    (4, 2, "+", "e1 s e2 f s", "[1]", " closed closed", 0, 1),
    (4, 2, "", "f", "", "", 0, 0),
    (4, 2, "+", "e1 f f", "[1]", "", 0, 0),
    (4, 2, "+", "e2 e1 f", "[2 1]", "", 0, 0),
    (4, 2, "+", "e1 u2 f", "[1]", "", 0, 0),
    (2, 4, "++", "e1 e2 e3 f", "[1 2][3]", "", 0, 0),
    (0, 0, "++", "e1 e2 f", "[1][2]", "", 0, 0),
    (1, 1, "++", "e1 u2 e3 f", "[1][3]", "", 0, 0),
    // The full queue is flushed again once a batch of spans was dropped.
    (2, 2, "--", "e1 e2 e3 e4 e5", "[1 2]![1 2]!", "", 2, 3),
    (2, 2, "-++", "e1 e2 e3 e4 e5 f", "[1 2]![1 2][5]", "", 0, 2),
    (1, 1, "--++", "e1 e2 e3 e4 f", "[1]![1]![1][4]", "", 0, 2),
    // A flush that accepts some of the batches makes space.
    (
        4,
        2,
        "+-++",
        "e1 e2 e3 e4 e5 f",
        "[1 2][3 4]![3 4][5]",
        "",
        0,
        0,
    ),
    // A flush of the caller that makes space ends the count.
    (
        2,
        2,
        "-+++",
        "e1 e2 e3 f e4 e5 e6 f",
        "[1 2]![1 2][4 5][6]",
        "",
        0,
        1,
    ),
];

#[test]
fn batches_are_handed_over(rt: HostRuntime) -> Result<(), Fail> {
    let alloc = rt.alloc();
    for (queue, batch, plan, script, batches, errors, queued, dropped) in RUNS {
        let config = BatchConfigBuilder::default()
            .with_max_queue_size(*queue)
            .with_max_export_batch_size(*batch)
            .build();
        let exporter = Planned::new(alloc, plan);
        let mut processor = BatchSpanProcessor::new(alloc, exporter, config);
        let found = played(alloc, &mut processor, script)?;
        assert_eq!(rt; processor.exporter().log.as_str(), *batches, "{script}");
        assert_eq!(rt; found.as_str(), *errors, "{script}");
        assert_eq!(rt; processor.queued_spans(), *queued, "{script}");
        assert_eq!(rt; processor.dropped_spans(), *dropped, "{script}");
    }
    Ok(())
}

#[test]
fn a_simple_processor_exports_each_span(rt: HostRuntime) -> Result<(), Fail> {
    let alloc = rt.alloc();
    let exporter = Planned::new(alloc, "-++");
    let mut processor = SimpleSpanProcessor::new(alloc, exporter);
    let errors = played(alloc, &mut processor, "e1 u2 e3 s e4")?;
    assert_eq!(rt; processor.exporter().log.as_str(), "[1]![1][3]");
    assert_eq!(rt; errors.as_str(), "");
    assert_eq!(rt; processor.queued_spans(), 0);
    assert_eq!(rt; processor.dropped_spans(), 1);
    Ok(())
}

#[test]
fn the_exporter_is_flushed_at_last(rt: HostRuntime) -> Result<(), Fail> {
    let alloc = rt.alloc();
    let exporter = Planned::new(alloc, "+-");
    let mut processor = BatchSpanProcessor::new(alloc, exporter, Default::default());
    let errors = played(alloc, &mut processor, "e1 f e2 f")?;
    assert_eq!(rt; errors.as_str(), " failed");
    assert_eq!(rt; processor.exporter().flushes, 1);
    Ok(())
}

#[test]
fn a_queue_has_room_for_2048_spans(rt: HostRuntime) -> Result<(), Fail> {
    let alloc = rt.alloc();
    let exporter = InMemorySpanExporter::new(alloc);
    let mut processor = BatchSpanProcessor::new(alloc, exporter, Default::default());
    for number in 0..2050 {
        processor.on_end(span_data(alloc, number, 1)?);
    }
    assert_eq!(rt; processor.queued_spans(), 2);
    assert_eq!(rt; processor.dropped_spans(), 0);
    assert_eq!(rt; processor.exporter().get_finished_spans()?.len(), 2048);
    let exporter = InMemorySpanExporter::new(alloc);
    let config = BatchConfigBuilder::default()
        .with_max_queue_size(4096)
        .build();
    let mut processor = BatchSpanProcessor::new(alloc, exporter, config);
    for number in 0..2050 {
        processor.on_end(span_data(alloc, number, 1)?);
    }
    assert_eq!(rt; processor.queued_spans(), 2050);
    Ok(())
}

#[test]
fn a_span_that_a_simple_processor_cannot_export_is_kept(rt: HostRuntime) -> Result<(), Fail> {
    let alloc = rt.alloc();
    let mut processor = SimpleSpanProcessor::new(alloc, Planned::new(alloc, "+-+-+"));
    let errors = played(alloc, &mut processor, "e1 e2")?;
    assert_eq!(rt; processor.exporter().log.as_str(), "[1][2]!");
    assert_eq!(rt; processor.queued_spans(), 1);
    let more = played(alloc, &mut processor, "e3")?;
    assert_eq!(rt; processor.exporter().log.as_str(), "[1][2]![2][3]!");
    assert_eq!(rt; processor.queued_spans(), 1);
    let last = played(alloc, &mut processor, "f")?;
    assert_eq!(rt; processor.exporter().log.as_str(), "[1][2]![2][3]![3]");
    assert_eq!(rt;
        (errors.as_str(), more.as_str(), last.as_str()),
        ("", "", "")
    );
    assert_eq!(rt;
        (processor.queued_spans(), processor.dropped_spans()),
        (0, 0)
    );
    Ok(())
}

#[test]
fn spans_are_exported_though_no_flush_succeeds(rt: HostRuntime) -> Result<(), Fail> {
    let alloc = rt.alloc();
    let mut exporter = Planned::new(alloc, "+++");
    exporter.fails_to_flush = true;
    let mut processor = SimpleSpanProcessor::new(alloc, exporter);
    let errors = played(alloc, &mut processor, "e1 e2 e3 f")?;
    assert_eq!(rt; processor.exporter().log.as_str(), "[1][2][3]");
    assert_eq!(rt; errors.as_str(), " failed");
    assert_eq!(rt; processor.queued_spans(), 0);
    Ok(())
}

#[test]
fn a_span_that_could_not_be_copied_is_counted(rt: HostRuntime) -> Result<(), Fail> {
    let alloc = rt.alloc();
    let (first, second) = (Planned::new(alloc, ""), Planned::new(alloc, ""));
    let batch = BatchSpanProcessor::new(alloc, first, Default::default());
    let mut processors = (batch, SimpleSpanProcessor::new(alloc, second));
    processors.on_loss(&span_data(alloc, 1, 1)?);
    processors.on_loss(&span_data(alloc, 2, 0)?);
    let dropped = (processors.0.dropped_spans(), processors.1.dropped_spans());
    assert_eq!(rt; dropped, (1, 1));
    assert_eq!(rt;
        (processors.dropped_spans(), processors.queued_spans()),
        (2, 0)
    );
    Ok(())
}

#[test]
fn no_processor_keeps_nothing(rt: HostRuntime) -> Result<(), Fail> {
    let mut none = ();
    assert!(rt; !none.keeps_ended() && none.is_shut_down());
    none.on_end(span_data(rt.alloc(), 1, 1)?);
    assert!(rt; none.force_flush().is_ok() && none.shutdown().is_ok());
    assert_eq!(rt; (none.queued_spans(), none.dropped_spans()), (0, 0));
    Ok(())
}
