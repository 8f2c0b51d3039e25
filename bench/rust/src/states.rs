//! Operations on trace states.
use crate::task::Task;
use opentelemetry::trace::TraceState;
use std::hint::black_box;
use std::str::FromStr;

pub fn play(task: &Task<'_>) -> Option<u64> {
    let text = match task.name {
        "state_read_alike" => alike(task.size),
        _ => text(task.size),
    };
    let state = read(&text);
    match task.name {
        "state_read" | "state_read_alike" => task.repeat(|| {
            drop(black_box(read(black_box(&text))));
            0
        }),
        "state_read_header" => task.repeat(|| {
            let state = read(black_box(&text));
            black_box(black_box(&state).header()).len()
        }),
        "state_header" => task.repeat(|| black_box(black_box(&state).header()).len()),
        "state_clone" => task.repeat(|| {
            drop(black_box(black_box(&state).clone()));
            0
        }),
        "state_get_last" => {
            let key = format!("key{}", task.size.saturating_sub(1));
            task.repeat(|| {
                let found = black_box(&state).get(black_box(&key));
                black_box(found.map_or(0, str::len))
            })
        }
        "state_insert" => task.repeat(|| {
            let (key, value) = ("key5".to_string(), "other".to_string());
            drop(black_box(black_box(&state).insert(key, value).unwrap()));
            0
        }),
        "state_delete" => task.repeat(|| {
            drop(black_box(black_box(&state).delete("key5").unwrap()));
            0
        }),
        _ => None,
    }
}

fn read(text: &str) -> TraceState {
    TraceState::from_str(text).unwrap()
}

/// Pairs `key0=value0` and so on.
fn text(size: usize) -> String {
    let pairs: Vec<String> = (0..size)
        .map(|number| format!("key{number}=value{number}"))
        .collect();
    pairs.join(",")
}

/// Pairs `xx..xa=value0` and so on, whose keys have 256 bytes and only differ in the last one.
fn alike(size: usize) -> String {
    let front = "x".repeat(255);
    let pairs: Vec<String> = "abcdefghijklmnopqrstuvwxyz0123456789"
        .chars()
        .take(size)
        .enumerate()
        .map(|(number, last)| format!("{front}{last}=value{number}"))
        .collect();
    pairs.join(",")
}
