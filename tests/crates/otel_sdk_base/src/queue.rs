//! A queue of items of a custom type, in front of an exporter in memory.
ghost use Rattle.std.specs.Prelude.{◌≡◌, []};

use otel_sdk_base::error::{OTelSdkError, OTelSdkResult};
use otel_sdk_base::resource::Resource;
use otel_sdk_base::{
    BatchConfig, BatchConfigBuilder, ExactClone, Exporter, InMemoryExporter, Losses, Queue,
};
use std::alloc::{AllocError, Global};
use std::clone::Clone;
use std::default::Default;
use std::rc::Rc;
use std::test::Fail;

/// An item with a number.
#[derive(Drop)]
struct Item {
    number: u64,
}

impl Clone for Item {
    ghost is_clone = { λ d copy. copy ≡ d };

    fn clone(&self) -> Result<Item, AllocError> {
        Ok(Item {
            number: self.number,
        })
    }
}

impl ExactClone for Item {
    ghost is_exact = { λ _ _ same. same };
}

/// An exporter that refuses each batch.
#[derive(Drop)]
struct Closed {
    refusals: u64,
}

impl Exporter<u64> for Closed {
    ghost use Rattle.otel_sdk_base.specs.Export.{any_calls};

    ghost accepted = { λ _. [] };

    ghost calls = { any_calls };

    fn export(&mut self, _batch: &[u64]) -> OTelSdkResult {
        self.refusals = self.refusals.saturating_add(1);
        Err(OTelSdkError::AlreadyShutdown)
    }

    fn force_flush(&mut self) -> OTelSdkResult {
        Ok(())
    }

    fn shutdown(&mut self) -> OTelSdkResult {
        Ok(())
    }

    fn set_resource(&mut self, resource: Rc<Resource>) {
        drop(resource);
    }

    fn losses(&self) -> Losses {
        Losses::default()
    }

    fn last_message(&self) -> Option<&str> {
        None
    }
}

/// Returns the number of items in a new queue.
fn length_of_new<E: Exporter<u64>>(alloc: Global, exporter: E) -> usize {
    let queue: Queue<u64, E> = Queue::new(alloc, exporter, BatchConfig::default());
    queue.len()
}

fn numbers(exporter: &InMemoryExporter<Item>) -> Result<u64, AllocError> {
    let mut digits = 0;
    for item in &exporter.get_items()? {
        digits = digits * 10 + item.number;
    }
    Ok(digits)
}

#[test]
fn items_are_exported_in_order(rt: HostRuntime) -> Result<(), Fail> {
    let alloc = rt.alloc();
    let config = BatchConfigBuilder::default()
        .with_max_queue_size(3)
        .with_max_export_batch_size(2)
        .build();
    let mut queue = Queue::with_capacity(alloc, InMemoryExporter::new(alloc), config)?;
    for number in 1..=4u64 {
        assert!(rt; queue.reserve().is_ok());
        queue.add(Item { number });
    }
    assert_eq!(rt; queue.len(), 3);
    assert_eq!(rt; queue.dropped(), 1);
    assert!(rt; queue.force_flush().is_ok());
    assert_eq!(rt; queue.len(), 0);
    assert_eq!(rt; numbers(queue.exporter())?, 123);
    assert!(rt; queue.shutdown().is_ok());
    assert!(rt; queue.is_shut_down());
    assert!(rt; matches!(queue.reserve(), Err(OTelSdkError::AlreadyShutdown)));
    Ok(())
}

#[test]
fn a_new_queue_is_empty(rt: HostRuntime) -> Result<(), Fail> {
    assert_eq!(rt; length_of_new(rt.alloc(), Closed { refusals: 0 }), 0);
    Ok(())
}
