//! When a service exports, and that it loses no span.
use crate::exports::Noted;
use crate::processor::{Planned, report};
use opentelemetry::trace::Tracing;
use otel_sdk::EnvConfig;
use otel_sdk::env::EnvBatches;
use otel_sdk::trace::{
    Build, CountedClock, CountedIdGenerator, ExportSchedule, Exporter, ExporterProcessor, Exports,
    FinishedSpans, InMemorySpanExporter, ManualClock, OpenPipeline, ParentBased, Sampler,
    SdkTracing, SpanData, SpanProcessor, TracingBuilder, WithExporter, finish,
};
use std::process::Abort;
use std::test::Fail;
use std::time::Duration;

/// A millisecond in nanoseconds.
const MILLI: u64 = 1_000_000;

type App<E> = SdkTracing<
    OpenPipeline<ParentBased<Sampler>, CountedIdGenerator, CountedClock>,
    ((), ExporterProcessor<E>),
>;

/// A value without spans, over queues of these sizes.
fn app<E: Exporter<SpanData>>(
    rt: HostRuntime,
    exporter: E,
    batches: &EnvBatches,
) -> Result<App<E>, Fail> {
    let builder = TracingBuilder::new(rt)
        .counted(1)
        .with_batch_config(batches.config());
    Ok(builder.with_exporter(exporter).build(rt.alloc(), "cart")?)
}

/// A queue for so many spans and batches of so many, with a delay of 100 ms.
fn sizes(max_queue_size: u32, max_export_batch_size: u32) -> EnvBatches {
    EnvBatches {
        max_queue_size,
        max_export_batch_size,
        schedule_delay_millis: 100,
        export_timeout_millis: 0,
    }
}

/// Spans begin and end.
fn end<E: Exporter<SpanData>>(app: &mut App<E>, spans: usize) -> Result<(), Fail> {
    for _ in 0..spans {
        let span = app.enter("serve")?;
        app.exit(span);
    }
    Ok(())
}

/// The time in milliseconds.
fn millis(time: Option<Duration>) -> Option<u128> {
    time.map(|it| it.as_millis())
}

/// A call after a request: the clock's timestamp in milliseconds, the number of spans that ended
/// before, the calls that the exporter has had afterwards, and the milliseconds that are left.
type Step = (u64, usize, &'static str, Option<u128>);

/// Asserts the steps, with batches of four spans, from one second on.
fn plays(host: HostRuntime, rt: &impl Abort, steps: &[Step]) -> Result<(), Fail> {
    let clock = ManualClock::new(1000 * MILLI);
    let mut app = app(host, Noted::new(host.alloc()), &sizes(8, 4))?;
    let mut schedule = ExportSchedule::new(&clock, &sizes(8, 4));
    for (moment, spans, calls, left) in steps {
        clock.set(*moment * MILLI);
        end(&mut app, *spans)?;
        schedule.export_if_due(&mut app, &clock)?;
        let exporter = app.processors().1.exporter();
        assert_eq!(rt; exporter.calls.as_str(), *calls, "{moment}");
        assert_eq!(rt; millis(schedule.time_left(&app)), *left, "{moment}");
    }
    Ok(())
}

#[test]
fn a_full_batch_or_the_delay_makes_an_export_due(rt: HostRuntime) -> Result<(), Fail> {
    plays(
        rt,
        &rt,
        &[
            (1000, 3, "r", Some(100)),
            (1099, 0, "r", Some(1)),
            (1100, 0, "r3f", None),
            (1110, 3, "r3f", Some(90)),
            (1150, 1, "r3f4f", None),
            (1249, 1, "r3f4f", Some(1)),
            (1250, 0, "r3f4f1f", None),
            // Nothing is queued, however long.
            (9000, 0, "r3f4f1f", None),
            (9001, 1, "r3f4f1f1f", None),
            (9001, 6, "r3f4f1f1f42f", None),
        ],
    )
}

#[test]
fn a_clock_that_is_set_back_delays_an_export_by_no_more(rt: HostRuntime) -> Result<(), Fail> {
    plays(
        rt,
        &rt,
        &[
            (1040, 1, "r", Some(60)),
            (5, 1, "r", Some(60)),
            (6, 1, "r", Some(59)),
            (64, 0, "r", Some(1)),
            (65, 0, "r3f", None),
            // A clock that is set forward exports once.
            (90_000, 1, "r3f1f", None),
            (90_001, 1, "r3f1f", Some(99)),
            (0, 0, "r3f1f", Some(99)),
            (99, 0, "r3f1f1f", None),
        ],
    )
}

#[test]
fn what_is_due_is_due_at_once(rt: HostRuntime) -> Result<(), Fail> {
    let clock = ManualClock::new(0);
    let mut app = app(rt, Noted::new(rt.alloc()), &sizes(8, 4))?;
    let schedule = ExportSchedule::new(&clock, &sizes(8, 4));
    assert_eq!(rt; millis(schedule.time_left(&app)), None);
    end(&mut app, 4)?;
    assert_eq!(rt; millis(schedule.time_left(&app)), Some(0));
    // A queue for three spans has no batches of four.
    let mut schedule = ExportSchedule::new(&clock, &sizes(3, 4));
    app.flush()?;
    end(&mut app, 3)?;
    schedule.export_if_due(&mut app, &clock)?;
    assert_eq!(rt; app.processors().queued_spans(), 0);
    Ok(())
}

/// The milliseconds, the spans that end before the call, the batches that were handed over until
/// then, and the errors.
const REFUSALS: &[(u64, usize, &str, &str)] = &[
    (0, 2, "[1 2]!", " failed"),
    (1, 1, "[1 2]!", " failed"),
    (99, 1, "[1 2]!", " failed"),
    // The queue is full. The next span flushes it, and then the third one after it.
    (99, 2, "[1 2]![1 2]!", " failed"),
    (99, 1, "[1 2]![1 2]![1 2]!", " failed"),
    (100, 0, "[1 2]![1 2]![1 2]![1 2]!", " failed failed"),
    (199, 0, "[1 2]![1 2]![1 2]![1 2]!", " failed failed"),
    (
        200,
        0,
        "[1 2]![1 2]![1 2]![1 2]![1 2][3 4]",
        " failed failed",
    ),
    (
        200,
        2,
        "[1 2]![1 2]![1 2]![1 2]![1 2][3 4][8 9]",
        " failed failed",
    ),
];

#[test]
fn a_refusing_exporter_is_tried_after_the_delay(rt: HostRuntime) -> Result<(), Fail> {
    let clock = ManualClock::new(0);
    let batches = sizes(4, 2);
    let mut app = app(rt, Planned::new(rt.alloc(), "----+++"), &batches)?;
    let mut schedule = ExportSchedule::new(&clock, &batches);
    let mut errors = String::new(rt.alloc());
    for (moment, spans, log, wanted) in REFUSALS {
        clock.set(*moment * MILLI);
        end(&mut app, *spans)?;
        if let Err(error) = schedule.export_if_due(&mut app, &clock) {
            report(&mut errors, &error)?;
        }
        assert_eq!(rt;
            app.processors().1.exporter().log.as_str(),
            *log,
            "{moment} {spans}"
        );
        assert_eq!(rt; errors.as_str(), *wanted, "{moment} {spans}");
    }
    assert_eq!(rt; app.processors().dropped_spans(), 3);
    assert!(rt; finish(&mut app, &clock, &batches).is_err());
    Ok(())
}

#[test]
fn an_exporter_that_failed_is_flushed_though_nothing_is_queued(
    rt: HostRuntime,
) -> Result<(), Fail> {
    let clock = ManualClock::new(0);
    let mut exporter = Planned::new(rt.alloc(), "+");
    exporter.fails_to_flush = true;
    let mut app = app(rt, exporter, &sizes(8, 1))?;
    let mut schedule = ExportSchedule::new(&clock, &sizes(8, 1));
    end(&mut app, 1)?;
    assert!(rt; schedule.export_if_due(&mut app, &clock).is_err());
    assert_eq!(rt; app.processors().queued_spans(), 0);
    assert_eq!(rt; millis(schedule.time_left(&app)), Some(100));
    clock.set(100 * MILLI);
    assert!(rt; schedule.export_if_due(&mut app, &clock).is_err());
    assert_eq!(rt; app.processors().1.exporter().flushes, 2);
    Ok(())
}

#[test]
fn the_environment_gives_the_delay(rt: HostRuntime) -> Result<(), Fail> {
    let config = EnvConfig::from_vars(rt.alloc(), &[])?;
    let clock = ManualClock::new(0);
    let mut tracing = app(rt, Noted::new(rt.alloc()), &config.span_batches)?;
    end(&mut tracing, 1)?;
    let mut schedule = ExportSchedule::new(&clock, &config.span_batches);
    schedule.export_if_due(&mut tracing, &clock)?;
    let timeout = schedule.time_left(&tracing);
    assert_eq!(rt; millis(timeout), Some(5000));
    assert_eq!(rt; tracing.processors().1.exporter().calls.as_str(), "r");
    clock.set(5000 * MILLI);
    schedule.export_if_due(&mut tracing, &clock)?;
    assert_eq!(rt; tracing.processors().1.exporter().calls.as_str(), "r1f");
    Ok(())
}

/// Sizes of queues and of batches, as variables.
const SIZES: &[(&str, &str)] = &[
    ("1", ""),
    ("2", ""),
    ("2", "1"),
    ("3", "2"),
    ("100", ""),
    ("512", "512"),
    ("", "7"),
    ("", ""),
];

#[test]
fn no_size_of_queue_loses_a_span(rt: HostRuntime) -> Result<(), Fail> {
    let alloc = rt.alloc();
    for (queue, batch) in SIZES {
        let vars = [
            ("OTEL_BSP_MAX_QUEUE_SIZE", *queue),
            ("OTEL_BSP_MAX_EXPORT_BATCH_SIZE", *batch),
        ];
        let batches = batches_of(rt, &vars)?;
        let clock = CountedClock::new(MILLI);
        let mut app = app(rt, InMemorySpanExporter::new(alloc), &batches)?;
        let mut schedule = ExportSchedule::new(&clock, &batches);
        for _ in 0..1000 {
            let serve = app.enter("serve")?;
            end(&mut app, 2)?;
            app.exit(serve);
            schedule.export_if_due(&mut app, &clock)?;
            assert!(rt; app.processors().queued_spans() < batches.max_export_batch_size as usize);
        }
        let kept = app.processors().1.exporter().get_finished_spans()?.len();
        assert_eq!(rt;
            kept + app.processors().queued_spans(),
            3000,
            "{queue} {batch}"
        );
        assert!(rt;
            finish(&mut app, &clock, &batches).is_ok(),
            "{queue} {batch}"
        );
    }
    Ok(())
}

/// The batches that the variables give.
fn batches_of(rt: HostRuntime, vars: &[(&'static str, &'static str)]) -> Result<EnvBatches, Fail> {
    let mut owned = Vec::new(rt.alloc());
    for (name, value) in vars {
        let name = String::from_str(rt.alloc(), name)?;
        owned.push((name, String::from_str(rt.alloc(), value)?))?;
    }
    Ok(EnvConfig::from_vars(rt.alloc(), &owned)?.span_batches)
}
