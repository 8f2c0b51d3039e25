//! Operations on baggage.
use crate::task::Task;
use opentelemetry::baggage::Baggage;
use opentelemetry::{Key, StringValue};
use std::hint::black_box;

pub fn play(task: &Task<'_>) -> Option<u64> {
    let pairs = pairs(task.size);
    let baggage = filled(&pairs);
    match task.name {
        "baggage_insert" => task.repeat(|| {
            drop(black_box(filled(black_box(&pairs))));
            0
        }),
        "baggage_insert_to_string" => task.repeat(|| {
            let baggage = filled(black_box(&pairs));
            black_box(black_box(&baggage).to_string()).len()
        }),
        "baggage_copy_texts" => task.repeat(|| {
            let mut length = 0;
            for (key, value) in black_box(&pairs) {
                let key = black_box(Key::from(key.clone()));
                let value = black_box(StringValue::from(value.clone()));
                length += key.as_str().len() + value.as_str().len();
            }
            length
        }),
        "baggage_to_string" => task.repeat(|| black_box(black_box(&baggage).to_string()).len()),
        "baggage_get_middle" => get(task, &baggage, task.size / 2),
        "baggage_get_last" => get(task, &baggage, task.size - 1),
        "baggage_get_absent" => get(task, &baggage, task.size),
        _ => None,
    }
}

/// Looks up the key with this number.
fn get(task: &Task<'_>, baggage: &Baggage, number: usize) -> Option<u64> {
    let key = format!("key{number}");
    task.repeat(|| {
        let found = black_box(baggage).get(black_box(key.as_str()));
        black_box(found.map_or(0, |value| value.as_str().len()))
    })
}

/// Pairs `key0` and `value 0` and so on.
fn pairs(size: usize) -> Vec<(String, String)> {
    (0..size)
        .map(|number| (format!("key{number}"), format!("value {number}")))
        .collect()
}

fn filled(pairs: &[(String, String)]) -> Baggage {
    let mut baggage = Baggage::new();
    for (key, value) in pairs {
        let _ = baggage.insert(key.clone(), value.clone());
    }
    baggage
}
