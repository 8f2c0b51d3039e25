//! Operations on a table of spans.
use crate::operation::{Operation, Task, add, repeat};
use crate::random::Random;
use crate::spans::{Table, insert, table_of, take};
use opentelemetry::trace::Span;
use std::alloc::{AllocError, Global};

pub fn play(task: &Task<'_>, alloc: Global) -> Result<Option<u64>, AllocError> {
    match task.name {
        "table_insert_take" => {
            let spans = table_of(alloc, task.size)?;
            repeat(Taking { alloc, spans }, task.times)
        }
        "table_get" => {
            let spans = table_of(alloc, task.size)?;
            let number = (task.size / 2) as u64;
            repeat(Getting { spans, number }, task.times)
        }
        "table_oldest" => turn(alloc, task, 0, Order::Oldest),
        "table_mixed" => turn(alloc, task, 0, Order::Mixed(Random::new())),
        "table_beside" => turn(alloc, task, 1, Order::Oldest),
        _ => Ok(None),
    }
}

/// Takes spans in this order, of which `task.size` are live, and `kept` older ones are never taken.
fn turn(
    alloc: Global,
    task: &Task<'_>,
    kept: usize,
    order: Order,
) -> Result<Option<u64>, AllocError> {
    let mut spans = table_of(alloc, kept)?;
    let mut live = Vec::new(alloc);
    for _ in 0..task.size {
        live.push(insert(alloc, &mut spans)?)?;
    }
    let turning = Turning {
        alloc,
        spans,
        live,
        at: 0,
        order,
    };
    repeat(turning, task.times)
}

#[inline(never)]
fn look_up(spans: &Table, number: u64, sum: &mut u64) {
    if let Some(span) = spans.get(number) {
        add(sum, usize::from(span.is_recording()));
    }
}

#[derive(Drop)]
struct Taking {
    alloc: Global,
    spans: Table,
}

impl Operation for Taking {
    fn once(&mut self, sum: &mut u64) -> Result<(), AllocError> {
        let number = insert(self.alloc, &mut self.spans)?;
        take(&mut self.spans, number, sum);
        Ok(())
    }
}

#[derive(Drop)]
struct Getting {
    spans: Table,
    number: u64,
}

impl Operation for Getting {
    fn once(&mut self, sum: &mut u64) -> Result<(), AllocError> {
        look_up(&self.spans, self.number, sum);
        Ok(())
    }
}

/// The next span that is taken.
#[derive(Drop)]
enum Order {
    Oldest,
    /// Any.
    Mixed(Random),
}

/// A span is inserted, and one of the live ones is taken.
#[derive(Drop)]
struct Turning {
    alloc: Global,
    spans: Table,
    live: Vec<u64>,
    /// The index of the oldest one, if they are taken in order.
    at: usize,
    order: Order,
}

impl Turning {
    /// The index of the next span.
    fn next(&mut self) -> usize {
        let size = self.live.len();
        if size == 0 {
            return 0;
        }
        self.at = match &mut self.order {
            Order::Oldest => self.at.wrapping_add(1) % size,
            Order::Mixed(random) => random.next() % size,
        };
        self.at
    }
}

impl Operation for Turning {
    fn once(&mut self, sum: &mut u64) -> Result<(), AllocError> {
        let number = insert(self.alloc, &mut self.spans)?;
        let at = self.next();
        if let Some(place) = self.live.get_mut(at) {
            let taken = *place;
            *place = number;
            take(&mut self.spans, taken, sum);
        }
        Ok(())
    }
}
