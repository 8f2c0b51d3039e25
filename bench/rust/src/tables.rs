//! Operations on a table of spans. The crate has none: a `HashMap` of `std` is used instead of the
//! port's.
use crate::random::Random;
use crate::spans::{span_of, RecordingSpan};
use crate::task::Task;
use opentelemetry::trace::Span;
use std::collections::HashMap;
use std::hint::black_box;

pub fn play(task: &Task<'_>) -> Option<u64> {
    match task.name {
        "table_insert_take" => {
            let mut spans = table_of(task.size);
            let mut next = task.size as u64;
            task.repeat(|| {
                insert(&mut spans, next);
                let taken = take(&mut spans, next);
                next += 1;
                taken
            })
        }
        "table_get" => {
            let spans = table_of(task.size);
            let number = (task.size / 2) as u64;
            task.repeat(|| look_up(black_box(&spans), black_box(number)))
        }
        "table_oldest" => turn(task, 0, None),
        "table_mixed" => turn(task, 0, Some(Random::new())),
        "table_beside" => turn(task, 1, None),
        _ => None,
    }
}

/// Takes spans, of which `task.size` are live, the oldest first or in a mixed order. The `kept`
/// older ones are never taken.
fn turn(task: &Task<'_>, kept: usize, mut order: Option<Random>) -> Option<u64> {
    let mut spans = table_of(kept + task.size);
    let mut next = (kept + task.size) as u64;
    let mut live: Vec<u64> = (kept as u64..next).collect();
    let mut at = 0;
    task.repeat(|| {
        insert(&mut spans, next);
        at = match &mut order {
            None => (at + 1) % live.len(),
            Some(random) => random.next() % live.len(),
        };
        let taken = std::mem::replace(&mut live[at], next);
        next += 1;
        take(&mut spans, taken)
    })
}

#[inline(never)]
fn insert(spans: &mut HashMap<u64, RecordingSpan>, number: u64) {
    spans.insert(number, span_of());
}

#[inline(never)]
fn take(spans: &mut HashMap<u64, RecordingSpan>, number: u64) -> usize {
    usize::from(black_box(spans.remove(&number)).is_some())
}

#[inline(never)]
fn look_up(spans: &HashMap<u64, RecordingSpan>, number: u64) -> usize {
    let found = spans.get(&number);
    usize::from(found.is_some_and(RecordingSpan::is_recording))
}

fn table_of(size: usize) -> HashMap<u64, RecordingSpan> {
    (0..size as u64).map(|number| (number, span_of())).collect()
}
