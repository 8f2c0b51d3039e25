//! The spans that no receiver has: what processors add to their exporters' numbers.
use opentelemetry::trace::Tracing;
use otel_sdk::EnvConfig;
use otel_sdk::error::{OTelSdkError, OTelSdkResult};
use otel_sdk::resource::Resource;
use otel_sdk::trace::{
    BatchConfigBuilder, BatchSpanProcessor, Build, ConfiguredProcessor, CountedClock, Exporter,
    Exports, Losses, SimpleSpanProcessor, SpanData, SpanProcessor, TracingBuilder, WithExporter,
    finish,
};
use std::alloc::Global;
use std::default::Default;
use std::rc::Rc;
use std::test::Fail;
use test_support::span_data;

/// An exporter that has lost spans, and refuses batches or accepts them.
#[derive(Drop)]
struct Lossy {
    losses: Losses,
    message: Option<&'static str>,
    refuses: bool,
    alloc: Global,
}

impl Exporter<SpanData> for Lossy {
    ghost use Rattle.std.specs.Option.{option_copied};
    ghost use Rattle.std.specs.Prelude.{[]};

    ghost accepted = { λ _. [] };

    ghost calls = { record {
      refuses = λ _ _ _. Unit {0};
      flushes = λ _ _ _. Unit {0};
      shuts_down = λ _ _ _. Unit {0};
      takes_resource = λ _ _ _. Unit {0};
      flushed = λ _ _. Unit {0};
      losses = λ e. e.losses;
      last_message = λ e. option_copied e.message;
    } };

    fn export(&mut self, _batch: &[SpanData]) -> OTelSdkResult {
        if self.refuses {
            return Err(OTelSdkError::InternalFailure(String::new(self.alloc)));
        }
        Ok(())
    }

    fn force_flush(&mut self) -> OTelSdkResult {
        Ok(())
    }

    fn shutdown(&mut self) -> OTelSdkResult {
        Ok(())
    }

    fn set_resource(&mut self, resource: Rc<Resource>) {
        drop(resource);
    }

    fn losses(&self) -> Losses {
        self.losses
    }

    fn last_message(&self) -> Option<&str> {
        match self.message {
            Some(message) => Some(message),
            None => None,
        }
    }
}

/// The numbers of spans that were rejected, given up and dropped, and that are held.
fn numbers(rejected: u64, given_up: u64, dropped: u64, held: u64) -> Losses {
    Losses {
        rejected,
        given_up,
        dropped,
        held,
    }
}

/// An exporter that has lost 10 spans, and says so.
fn lossy(alloc: Global, refuses: bool) -> Lossy {
    Lossy {
        losses: numbers(1, 2, 3, 4),
        message: Some("no such tenant"),
        refuses,
        alloc,
    }
}

/// Hands the spans with these numbers to the processor.
fn end(alloc: Global, processor: &mut impl SpanProcessor, count: u64) -> Result<(), Fail> {
    for number in 1..=count {
        processor.on_end(span_data(alloc, number, 1)?);
    }
    Ok(())
}

#[test]
fn a_processor_adds_its_own_losses_to_its_exporters(rt: HostRuntime) -> Result<(), Fail> {
    let alloc = rt.alloc();
    let config = BatchConfigBuilder::default().with_max_queue_size(2).build();
    let mut batch = BatchSpanProcessor::new(alloc, lossy(alloc, true), config);
    assert!(rt; batch.losses() == numbers(1, 2, 3, 4));
    end(alloc, &mut batch, 7)?;
    batch.on_end(span_data(alloc, 8, 0)?);
    assert!(rt; batch.losses() == numbers(1, 2, 8, 6));
    assert!(rt; batch.shutdown().is_err());
    assert!(rt; batch.losses() == numbers(1, 2, 8, 6));
    assert_eq!(rt; batch.last_message(), Some("no such tenant"));
    let mut simple = SimpleSpanProcessor::new(alloc, lossy(alloc, true));
    end(alloc, &mut simple, 7)?;
    assert!(rt; simple.losses() == numbers(1, 2, 3, 11));
    assert_eq!(rt; simple.last_message(), Some("no such tenant"));
    Ok(())
}

#[test]
fn a_closed_processor_tells_its_exporters_losses(rt: HostRuntime) -> Result<(), Fail> {
    let alloc = rt.alloc();
    let mut batch = BatchSpanProcessor::new(alloc, lossy(alloc, false), Default::default());
    end(alloc, &mut batch, 2)?;
    batch.shutdown()?;
    assert!(rt; batch.losses() == numbers(1, 2, 3, 4));
    end(alloc, &mut batch, 2)?;
    assert!(rt; batch.losses() == numbers(1, 2, 5, 4));
    assert_eq!(rt; batch.last_message(), Some("no such tenant"));
    Ok(())
}

#[test]
fn several_processors_tell_the_sum_and_the_first_message(rt: HostRuntime) -> Result<(), Fail> {
    let alloc = rt.alloc();
    let processor = |exporter| BatchSpanProcessor::new(alloc, exporter, Default::default());
    let mut silent = lossy(alloc, false);
    silent.message = None;
    silent.losses = numbers(u64::MAX, 0, 0, u64::MAX - 4);
    let mut other = lossy(alloc, false);
    other.message = Some("later");
    let both = (processor(silent), processor(lossy(alloc, false)));
    assert!(rt; both.losses() == numbers(u64::MAX, 2, 3, u64::MAX));
    assert_eq!(rt; both.losses().total(), u64::MAX);
    assert_eq!(rt; both.last_message(), Some("no such tenant"));
    let three = (((), processor(lossy(alloc, false))), processor(other));
    assert!(rt; three.losses() == numbers(2, 4, 6, 8));
    assert_eq!(rt; three.last_message(), Some("no such tenant"));
    assert!(rt; ().losses() == Losses::default() && ().last_message().is_none());
    Ok(())
}

#[test]
fn a_processor_that_is_off_loses_nothing(rt: HostRuntime) -> Result<(), Fail> {
    let alloc = rt.alloc();
    for (is_off, losses, message) in [
        (true, Losses::default(), None),
        (false, numbers(1, 2, 3, 5), Some("no such tenant")),
    ] {
        let batch = BatchSpanProcessor::new(alloc, lossy(alloc, false), Default::default());
        let mut configured = ConfiguredProcessor::new(batch, is_off);
        configured.on_end(span_data(alloc, 1, 1)?);
        assert!(rt; configured.losses() == losses, "{is_off}");
        assert_eq!(rt; configured.last_message(), message, "{is_off}");
    }
    Ok(())
}

/// What an exporter lost is no success, though its shutdown is.
#[test]
fn finish_tells_what_the_exporter_lost(rt: HostRuntime) -> Result<(), Fail> {
    let alloc = rt.alloc();
    let config = EnvConfig::from_vars(alloc, &[])?;
    let mut rows = Vec::new(alloc);
    for losses in [
        numbers(1, 0, 0, 0),
        numbers(0, 1, 0, 0),
        numbers(0, 0, 1, 0),
        numbers(0, 0, 0, 1),
    ] {
        rows.push(losses)?;
    }
    for losses in &rows {
        let mut exporter = lossy(alloc, false);
        exporter.losses = *losses;
        let builder = TracingBuilder::new(rt).counted(1);
        let mut tracing = builder.with_exporter(exporter).build(alloc, "cart")?;
        tracing.enter("serve")?;
        let Err(error) = finish(&mut tracing, &CountedClock::new(1), &config.span_batches) else {
            return Err(Fail::from("no error"));
        };
        assert!(rt; error.losses == *losses && error.error.is_none());
        let message = error.message?;
        assert_eq!(rt;
            message.as_ref().map(|it| it.as_str()),
            Some("no such tenant")
        );
        assert!(rt; tracing.processors().is_shut_down());
    }
    Ok(())
}
