//! Single attaches, each removed immediately. The crate's guard is used both for the port's guard
//! and for its position.
use crate::contexts::{named, remote};
use crate::task::Task;
use opentelemetry::{Context, ContextGuard};
use std::hint::black_box;

pub fn play(task: &Task<'_>) -> Option<u64> {
    let below: Vec<ContextGuard> = (0..task.size).map(|_| Context::new().attach()).collect();
    let sum = match task.name {
        "attach_empty" | "push_empty" => task.repeat(|| {
            detach(attach_empty());
            1
        }),
        "attach_cloned" | "push_cloned" => cloned(task, &named()),
        "attach_remote" | "push_remote" => cloned(task, &remote()),
        _ => None,
    };
    for guard in below.into_iter().rev() {
        drop(guard);
    }
    sum
}

fn cloned(task: &Task<'_>, context: &Context) -> Option<u64> {
    task.repeat(|| {
        detach(attach_clone(black_box(context)));
        1
    })
}

#[inline(never)]
pub fn attach_empty() -> ContextGuard {
    Context::new().attach()
}

#[inline(never)]
pub fn attach_clone(context: &Context) -> ContextGuard {
    context.clone().attach()
}

#[inline(never)]
pub fn detach(guard: ContextGuard) {
    drop(guard);
}
