//! Operations on baggage.
use crate::operation::{Operation, Task, add, repeat};
use opentelemetry::baggage::Baggage;
use opentelemetry::{Key, StringValue};
use std::alloc::{AllocError, Global};

pub fn play(task: &Task<'_>, alloc: Global) -> Result<Option<u64>, AllocError> {
    let pairs = pairs(alloc, task.size)?;
    match task.name {
        "baggage_insert" => repeat(Filling { alloc, pairs }, task.times),
        "baggage_insert_to_string" => repeat(FillingAndPrinting { alloc, pairs }, task.times),
        "baggage_copy_texts" => repeat(CopyingTexts(pairs), task.times),
        "baggage_to_string" => print_all(alloc, filled(alloc, &pairs)?, task.times),
        "baggage_get_middle" => get(alloc, filled(alloc, &pairs)?, task.size / 2, task.times),
        "baggage_get_last" => {
            let last = task.size.saturating_sub(1);
            get(alloc, filled(alloc, &pairs)?, last, task.times)
        }
        "baggage_get_absent" => get(alloc, filled(alloc, &pairs)?, task.size, task.times),
        _ => Ok(None),
    }
}

fn print_all(alloc: Global, baggage: Baggage, times: u64) -> Result<Option<u64>, AllocError> {
    repeat(Printing { alloc, baggage }, times)
}

/// Looks up the key with this number.
fn get(
    alloc: Global,
    baggage: Baggage,
    number: usize,
    times: u64,
) -> Result<Option<u64>, AllocError> {
    let key = format!(in alloc; "key{number}")?;
    repeat(Getting { baggage, key }, times)
}

/// Pairs `key0` and `value 0` and so on.
#[inline(never)]
fn pairs(alloc: Global, size: usize) -> Result<Vec<(String, String)>, AllocError> {
    let mut pairs = Vec::new(alloc);
    for number in 0..size {
        let key = format!(in alloc; "key{number}")?;
        let value = format!(in alloc; "value {number}")?;
        pairs.push((key, value))?;
    }
    Ok(pairs)
}

#[inline(never)]
fn filled(alloc: Global, pairs: &Vec<(String, String)>) -> Result<Baggage, AllocError> {
    let mut baggage = Baggage::new(alloc);
    for pair in pairs {
        let key = Key::from(pair.0.clone()?);
        let value = StringValue::from(pair.1.clone()?);
        drop(baggage.insert(key, value)?);
    }
    Ok(baggage)
}

#[inline(never)]
fn let_go(baggage: Baggage) {
    drop(baggage);
}

#[inline(never)]
fn let_go_pair(key: Key, value: StringValue, sum: &mut u64) {
    add(sum, key.as_str().len());
    add(sum, value.as_str().len());
}

#[inline(never)]
fn print(alloc: Global, baggage: &Baggage, sum: &mut u64) -> Result<(), AllocError> {
    let text = baggage.to_string(alloc)?;
    add(sum, text.len());
    Ok(())
}

#[inline(never)]
fn look_up(baggage: &Baggage, key: &str, sum: &mut u64) {
    if let Some(value) = baggage.get(key) {
        add(sum, value.as_str().len());
    }
}

#[derive(Drop)]
struct Filling {
    alloc: Global,
    pairs: Vec<(String, String)>,
}

impl Operation for Filling {
    fn once(&mut self, _sum: &mut u64) -> Result<(), AllocError> {
        let_go(filled(self.alloc, &self.pairs)?);
        Ok(())
    }
}

#[derive(Drop)]
struct FillingAndPrinting {
    alloc: Global,
    pairs: Vec<(String, String)>,
}

impl Operation for FillingAndPrinting {
    fn once(&mut self, sum: &mut u64) -> Result<(), AllocError> {
        let baggage = filled(self.alloc, &self.pairs)?;
        print(self.alloc, &baggage, sum)?;
        let_go(baggage);
        Ok(())
    }
}

/// The part of an insert that copies its texts.
#[derive(Drop)]
struct CopyingTexts(Vec<(String, String)>);

impl Operation for CopyingTexts {
    fn once(&mut self, sum: &mut u64) -> Result<(), AllocError> {
        for pair in &self.0 {
            let key = Key::from(pair.0.clone()?);
            let value = StringValue::from(pair.1.clone()?);
            let_go_pair(key, value, sum);
        }
        Ok(())
    }
}

#[derive(Drop)]
struct Printing {
    alloc: Global,
    baggage: Baggage,
}

impl Operation for Printing {
    fn once(&mut self, sum: &mut u64) -> Result<(), AllocError> {
        print(self.alloc, &self.baggage, sum)
    }
}

#[derive(Drop)]
struct Getting {
    baggage: Baggage,
    key: String,
}

impl Operation for Getting {
    fn once(&mut self, sum: &mut u64) -> Result<(), AllocError> {
        look_up(&self.baggage, self.key.as_str(), sum);
        Ok(())
    }
}
