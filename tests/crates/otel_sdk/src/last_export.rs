//! The last export: how often it is tried, and when.
use opentelemetry::trace::Tracing;
use otel_sdk::EnvConfig;
use otel_sdk::env::EnvBatches;
use otel_sdk::error::{OTelSdkError, OTelSdkResult};
use otel_sdk::resource::Resource;
use otel_sdk::trace::{
    BatchConfigBuilder, Build, Clock, CountedClock, CountedIdGenerator, Exporter,
    ExporterProcessor, Exports, Losses, ManualClock, OpenPipeline, ParentBased, Sampler,
    SdkTracing, SpanData, SpanProcessor, SystemClock, TracingBuilder, Unfinished, WithExporter,
    finish,
};
use std::alloc::Global;
use std::cell::Cell;
use std::default::Default;
use std::rc::Rc;
use std::test::Fail;

/// A millisecond in nanoseconds.
const MILLI: u64 = 1_000_000;

/// An exporter that fails at the first flushes, and refuses the first batches.
#[derive(Drop)]
struct Busy {
    alloc: Global,
    failures: u32,
    refusals: u32,
    is_stuck: bool,
    flushes: u32,
    shutdowns: u32,
    spans: usize,
}

impl Busy {
    fn new(alloc: Global, failures: u32) -> Busy {
        Busy {
            alloc,
            failures,
            refusals: 0,
            is_stuck: false,
            flushes: 0,
            shutdowns: 0,
            spans: 0,
        }
    }
}

impl Exporter<SpanData> for Busy {
    ghost use Rattle.otel_sdk_base.specs.Export.{any_calls};
    ghost use Rattle.std.specs.Prelude.{[]};

    ghost accepted = { λ _. [] };

    ghost calls = { any_calls };

    fn export(&mut self, batch: &[SpanData]) -> OTelSdkResult {
        if self.refusals > 0 {
            self.refusals -= 1;
            return Err(OTelSdkError::InternalFailure(String::new(self.alloc)));
        }
        self.spans = self.spans.saturating_add(batch.len());
        Ok(())
    }

    fn force_flush(&mut self) -> OTelSdkResult {
        self.flushes = self.flushes.saturating_add(1);
        if self.flushes <= self.failures {
            return Err(OTelSdkError::InternalFailure(String::new(self.alloc)));
        }
        Ok(())
    }

    fn shutdown(&mut self) -> OTelSdkResult {
        self.shutdowns = self.shutdowns.saturating_add(1);
        if self.is_stuck {
            return Err(OTelSdkError::InternalFailure(String::new(self.alloc)));
        }
        Ok(())
    }

    fn set_resource(&mut self, resource: Rc<Resource>) {
        drop(resource);
    }

    fn losses(&self) -> Losses {
        Losses::default()
    }

    fn last_message(&self) -> Option<&str> {
        None
    }
}

type App = SdkTracing<
    OpenPipeline<ParentBased<Sampler>, CountedIdGenerator, CountedClock>,
    ((), ExporterProcessor<Busy>),
>;

/// Two spans that are open, in a queue for two.
fn app(rt: HostRuntime, exporter: Busy) -> Result<App, Fail> {
    let config = BatchConfigBuilder::default().with_max_queue_size(2).build();
    let builder = TracingBuilder::new(rt).counted(1).with_batch_config(config);
    let mut app = builder.with_exporter(exporter).build(rt.alloc(), "cart")?;
    app.enter("serve")?;
    app.enter("price")?;
    Ok(app)
}

/// The exporter of the value.
fn exporter(app: &App) -> &Busy {
    app.processors().1.exporter()
}

/// Whether the last try failed.
fn has_failed(answer: &Result<(), Unfinished>) -> bool {
    matches!(answer, Err(unfinished) if unfinished.error.is_some())
}

/// An export may take this many milliseconds.
fn within(millis: u32) -> EnvBatches {
    EnvBatches {
        max_queue_size: 2,
        max_export_batch_size: 2,
        schedule_delay_millis: 5000,
        export_timeout_millis: millis,
    }
}

/// The failures before a flush succeeds, the milliseconds that are allowed, the tries, the
/// milliseconds that they take, and whether all goes well.
const TRIES: &[(u32, u32, u32, u64, bool)] = &[
    (0, 30_000, 1, 0, true),
    (1, 30_000, 2, 100, true),
    (3, 30_000, 4, 300, true),
    (10, 1000, 11, 1000, true),
    (11, 1000, 11, 1000, false),
    (99, 250, 4, 250, false),
    (99, 100, 2, 100, false),
    (99, 0, 1, 0, false),
];

#[test]
fn a_failed_export_is_tried_again_every_100_milliseconds(rt: HostRuntime) -> Result<(), Fail> {
    for (failures, millis, tries, took, is_well) in TRIES {
        let mut app = app(rt, Busy::new(rt.alloc(), *failures))?;
        let clock = CountedClock::new(10 * MILLI);
        let answer = finish(&mut app, &clock, &within(*millis));
        assert_eq!(rt; answer.is_ok(), *is_well, "{failures} {millis}");
        assert_eq!(rt; has_failed(&answer), !*is_well);
        assert_eq!(rt; exporter(&app).flushes, *tries, "{failures} {millis}");
        assert_eq!(rt; exporter(&app).shutdowns, u32::from(*is_well));
        assert_eq!(rt; clock.now(), (*took + 10) * MILLI, "{failures} {millis}");
        assert_eq!(rt; (exporter(&app).spans, app.open_spans()), (2, 0));
    }
    Ok(())
}

#[test]
fn a_clock_that_has_stopped_allows_no_other_try(rt: HostRuntime) -> Result<(), Fail> {
    let mut app = app(rt, Busy::new(rt.alloc(), 99))?;
    let answer = finish(&mut app, &ManualClock::new(7), &within(30_000));
    assert!(rt; has_failed(&answer));
    assert_eq!(rt; exporter(&app).flushes, 1);
    Ok(())
}

/// A clock that is set back by a minute once, after its first reading.
#[derive(Drop)]
struct SetBack {
    clock: CountedClock,
    is_set: Cell<bool>,
}

impl Clock for SetBack {
    fn now(&self) -> u64 {
        let now = self.clock.now();
        if self.is_set.get() {
            return now;
        }
        self.is_set.set(true);
        now.saturating_add(60_000 * MILLI)
    }
}

#[test]
fn a_clock_that_is_set_back_allows_no_more_time(rt: HostRuntime) -> Result<(), Fail> {
    let mut app = app(rt, Busy::new(rt.alloc(), 99))?;
    let clock = SetBack {
        clock: CountedClock::new(10 * MILLI),
        is_set: Cell::new(false),
    };
    assert!(rt; finish(&mut app, &clock, &within(1000)).is_err());
    assert_eq!(rt; exporter(&app).flushes, 11);
    assert_eq!(rt; clock.now(), 1020 * MILLI);
    Ok(())
}

#[test]
fn after_a_shutdown_nothing_is_tried_again(rt: HostRuntime) -> Result<(), Fail> {
    let mut stuck = Busy::new(rt.alloc(), 0);
    stuck.is_stuck = true;
    let mut app = app(rt, stuck)?;
    for _ in 0..2 {
        let answer = finish(&mut app, &CountedClock::new(MILLI), &within(1000));
        assert!(rt; has_failed(&answer));
        assert_eq!(rt; (exporter(&app).flushes, exporter(&app).shutdowns), (1, 1));
    }
    Ok(())
}

#[test]
fn dropped_spans_are_no_success(rt: HostRuntime) -> Result<(), Fail> {
    let mut refusing = Busy::new(rt.alloc(), 0);
    refusing.refusals = 1;
    let mut app = app(rt, refusing)?;
    app.enter("third")?;
    let Err(error) = finish(&mut app, &CountedClock::new(1), &within(0)) else {
        assert!(rt; false, "no error");
        return Ok(());
    };
    assert_eq!(rt;
        error.to_string(rt.alloc())?.as_str(),
        "1 spans are lost (0 rejected, 0 given up, 1 dropped, 0 not exported)"
    );
    assert_eq!(rt; (exporter(&app).spans, exporter(&app).shutdowns), (2, 1));
    Ok(())
}

/// The numbers of lost spans, whether the last try failed, the last message, and what is printed.
const PRINTED: &[(Losses, bool, Option<&str>, &str)] = &[
    (
        Losses {
            rejected: 1000,
            given_up: 0,
            dropped: 500,
            held: 0,
        },
        true,
        Some("no such tenant"),
        "1500 spans are lost (1000 rejected, 0 given up, 500 dropped, 0 not exported): Operation failed: full; the receiver says: \"no such tenant\"",
    ),
    (
        Losses {
            rejected: 0,
            given_up: 7,
            dropped: 0,
            held: 0,
        },
        false,
        Some("a\nb"),
        "7 spans are lost (0 rejected, 7 given up, 0 dropped, 0 not exported); the receiver says: \"a\\nb\"",
    ),
    (
        Losses {
            rejected: 0,
            given_up: 0,
            dropped: 0,
            held: 0,
        },
        true,
        None,
        "spans may be lost: Operation failed: full",
    ),
];

#[test]
fn an_unfinished_export_is_told_in_one_line(rt: HostRuntime) -> Result<(), Fail> {
    let alloc = rt.alloc();
    for (losses, failed, message, printed) in PRINTED {
        let error = match failed {
            true => Some(OTelSdkError::InternalFailure(String::from_str(alloc, "full")?)),
            false => None,
        };
        let message = match message {
            Some(message) => Some(String::from_str(alloc, message)?),
            None => None,
        };
        let unfinished = Unfinished {
            losses: *losses,
            error,
            message: Ok(message),
        };
        assert_eq!(rt; unfinished.to_string(alloc)?.as_str(), *printed);
    }
    Ok(())
}

#[test]
fn the_environment_says_how_long_a_program_tries(rt: HostRuntime) -> Result<(), Fail> {
    let config = EnvConfig::from_vars(rt.alloc(), &[])?;
    let builder = TracingBuilder::new(rt).with_env(rt.alloc(), &config)?;
    let builder = builder.with_exporter(Busy::new(rt.alloc(), 1));
    let mut tracing = builder.build(rt.alloc(), "cart")?;
    tracing.enter("serve")?;
    finish(&mut tracing, &SystemClock::new(rt), &config.span_batches)?;
    assert!(rt; tracing.processors().losses() == Losses::default());
    let exporter = tracing.processors().1.exporter();
    assert_eq!(rt; (exporter.spans, exporter.flushes), (1, 2));
    Ok(())
}
