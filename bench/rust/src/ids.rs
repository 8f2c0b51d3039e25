//! Operations on ids.
use crate::task::Task;
use opentelemetry::TraceId;
use std::hint::black_box;

const ID: u128 = 0x4bf9_2f35_77b3_4da6_a3ce_929d_0e0e_4736;

pub fn play(task: &Task<'_>) -> Option<u64> {
    match task.name {
        "id_to_string" => {
            let id = TraceId::from(ID);
            task.repeat(|| black_box(black_box(id).to_string()).len())
        }
        "id_from_hex" => {
            let text = "4bf92f3577b34da6a3ce929d0e0e4736".to_string();
            task.repeat(|| match TraceId::from_hex(black_box(&text)) {
                Ok(id) if black_box(id) != TraceId::INVALID => 1,
                _ => 0,
            })
        }
        _ => None,
    }
}
