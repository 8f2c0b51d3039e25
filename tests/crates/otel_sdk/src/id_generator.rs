//! Ids from a source of random numbers, and counted ids.
use opentelemetry::trace::{SpanId, TraceId};
use otel_sdk::trace::{CountedIdGenerator, IdError, IdGenerator, RandomIdGenerator};
use std::cell::Cell;
use std::collections::HashSet;
use std::io;
use std::random::RandomSource;
use std::test::Fail;

/// A source that returns zeros, then numbers that end in 5, or fails at a draw.
#[derive(Drop)]
struct Scripted {
    zeros: u32,
    fails_at: u32,
    drawn: Cell<u32>,
}

impl RandomSource for Scripted {
    fn fill_bytes(&self, buf: &mut [u8]) -> io::Result<()> {
        let drawn = self.drawn.get().wrapping_add(1);
        self.drawn.set(drawn);
        if drawn == self.fails_at {
            return Err(io::Error::from(io::ErrorKind::Other));
        }
        for byte in buf.iter_mut() {
            *byte = 0;
        }
        if drawn > self.zeros {
            if let Some(last) = buf.last_mut() {
                *last = 5;
            }
        }
        Ok(())
    }
}

fn generator_of(zeros: u32, fails_at: u32) -> RandomIdGenerator<Scripted> {
    RandomIdGenerator::new(Scripted {
        zeros,
        fails_at,
        drawn: Cell::new(0),
    })
}

/// The number of draws that return 0, the draw that fails, and the result of the generator.
const DRAWS: &[(u32, u32, Result<u64, IdError>)] = &[
    (0, 0, Ok(5)),
    (2, 0, Ok(5)),
    (7, 0, Ok(5)),
    (8, 0, Err(IdError::Zero)),
    (0, 1, Err(IdError::Source)),
    (8, 8, Err(IdError::Source)),
    (8, 9, Err(IdError::Zero)),
];

#[test]
fn a_zero_is_drawn_again_up_to_eight_draws(rt: HostRuntime) -> Result<(), Fail> {
    for (zeros, fails_at, given) in DRAWS {
        let span_id = generator_of(*zeros, *fails_at).new_span_id();
        assert!(rt; span_id == given.map(SpanId::from));
        let trace_id = generator_of(*zeros, *fails_at).new_trace_id();
        assert!(rt; trace_id == given.map(|id| TraceId::from(id as u128)));
    }
    Ok(())
}

#[test]
fn random_ids_are_valid_and_differ(rt: HostRuntime) -> Result<(), Fail> {
    let alloc = rt.alloc();
    let ids = RandomIdGenerator::new(rt);
    let mut spans: HashSet<SpanId> = HashSet::new(alloc);
    let mut traces: HashSet<TraceId> = HashSet::new(alloc);
    for _ in 0..100_000 {
        let (Ok(span_id), Ok(trace_id)) = (ids.new_span_id(), ids.new_trace_id()) else {
            assert!(rt; false);
            return Ok(());
        };
        assert!(rt; span_id != SpanId::INVALID && spans.insert(span_id)?);
        assert!(rt; trace_id != TraceId::INVALID && traces.insert(trace_id)?);
    }
    assert!(rt; ids.is_random());
    Ok(())
}

#[test]
fn counted_ids_rise_from_one_apart(rt: HostRuntime) -> Result<(), Fail> {
    let ids = CountedIdGenerator::new();
    for number in 1..4 {
        assert!(rt; ids.new_trace_id() == Ok(TraceId::from(number as u128)));
    }
    for number in 1..4 {
        assert!(rt; ids.new_span_id() == Ok(SpanId::from(number)));
    }
    assert!(rt; !ids.is_random());
    Ok(())
}
