//! Rounds of many attaches, followed by the removal of each.
use crate::contexts::named;
use crate::random::mixed;
use crate::stacks::{attach_clone, attach_empty, detach};
use crate::task::Task;
use opentelemetry::{Context, ContextGuard};
use std::hint::black_box;

pub fn play(task: &Task<'_>) -> Option<u64> {
    let (_, rest) = task.name.split_once('_')?;
    let (order, kind) = rest.split_once('_')?;
    let named = named();
    let context = match kind {
        "empty" => None,
        "cloned" => Some(&named),
        _ => return None,
    };
    match order {
        "newest" => newest_first(task, context),
        "oldest" => oldest_first(task, context),
        "mixed" => in_mixed_order(task, context),
        _ => None,
    }
}

/// Attaches clones of the context or, if none is given, empty contexts.
fn attach_all(guards: &mut impl Extend<ContextGuard>, context: Option<&Context>, size: usize) {
    match context {
        Some(context) => {
            guards.extend((0..size).map(|_| attach_clone(black_box(context))));
        }
        None => guards.extend((0..size).map(|_| attach_empty())),
    }
}

fn newest_first(task: &Task<'_>, context: Option<&Context>) -> Option<u64> {
    let mut guards: Vec<ContextGuard> = Vec::new();
    task.repeat(|| {
        attach_all(&mut guards, context, task.size);
        while let Some(guard) = guards.pop() {
            detach(guard);
        }
        task.size
    })
}

fn oldest_first(task: &Task<'_>, context: Option<&Context>) -> Option<u64> {
    let mut guards: Vec<ContextGuard> = Vec::new();
    task.repeat(|| {
        attach_all(&mut guards, context, task.size);
        for guard in guards.drain(..) {
            detach(guard);
        }
        task.size
    })
}

/// Guards that are dropped in any order.
struct Places(Vec<Option<ContextGuard>>);

impl Extend<ContextGuard> for Places {
    fn extend<I: IntoIterator<Item = ContextGuard>>(&mut self, guards: I) {
        self.0.extend(guards.into_iter().map(Some));
    }
}

fn in_mixed_order(task: &Task<'_>, context: Option<&Context>) -> Option<u64> {
    let order = mixed(task.size);
    let mut guards = Places(Vec::new());
    task.repeat(|| {
        attach_all(&mut guards, context, task.size);
        for number in black_box(&order) {
            if let Some(guard) = guards.0[*number].take() {
                detach(guard);
            }
        }
        guards.0.clear();
        task.size
    })
}
