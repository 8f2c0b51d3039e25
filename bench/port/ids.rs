//! Operations on ids.
use crate::operation::{Operation, Task, add, repeat};
use opentelemetry::TraceId;
use std::alloc::{AllocError, Global};

const ID: u128 = 0x4bf9_2f35_77b3_4da6_a3ce_929d_0e0e_4736;

pub fn play(task: &Task<'_>, alloc: Global) -> Result<Option<u64>, AllocError> {
    match task.name {
        "id_to_string" => {
            let id = TraceId::from(ID);
            repeat(Printing { alloc, id }, task.times)
        }
        "id_from_hex" => {
            let text = String::from_str(alloc, "4bf92f3577b34da6a3ce929d0e0e4736")?;
            repeat(Reading(text), task.times)
        }
        _ => Ok(None),
    }
}

#[inline(never)]
fn print(alloc: Global, id: TraceId, sum: &mut u64) -> Result<(), AllocError> {
    let text = id.to_string(alloc)?;
    add(sum, text.len());
    Ok(())
}

#[inline(never)]
fn read(text: &str, sum: &mut u64) {
    if let Ok(id) = TraceId::from_hex(text) {
        if id != TraceId::INVALID {
            add(sum, 1);
        }
    }
}

#[derive(Drop)]
struct Printing {
    alloc: Global,
    id: TraceId,
}

impl Operation for Printing {
    fn once(&mut self, sum: &mut u64) -> Result<(), AllocError> {
        print(self.alloc, self.id, sum)
    }
}

#[derive(Drop)]
struct Reading(String);

impl Operation for Reading {
    fn once(&mut self, sum: &mut u64) -> Result<(), AllocError> {
        read(self.0.as_str(), sum);
        Ok(())
    }
}
