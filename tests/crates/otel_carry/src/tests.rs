//! The output and the status of the program, for inputs and outputs in memory.
mod carry;
mod events;
mod extraction;
mod input;
mod lines;
mod report;

use crate::name_member::NameMember;
use opentelemetry::propagation::{TextMapCompositePropagator, TextMapPropagator};
use otel_propagators::{BaggagePropagator, TraceContextPropagator};
use std::alloc::{AllocError, Global};
use std::io::{BufWriter, Read, Write};
use std::process::Abort;

/// The output if no context is attached.
const BASE: &str = "current: base\nbaggage=\nextracted: none\n";

/// Runs the input with the program's composite, on an unbuffered output.
fn unbuffered<R: Read + Drop, W: Write>(
    alloc: Global,
    input: R,
    output: &mut W,
) -> Result<u8, AllocError> {
    let mut members: Vec<Box<dyn TextMapPropagator>> = Vec::new(alloc);
    members.push(Box::new(alloc, NameMember::new(alloc)?)?)?;
    members.push(Box::new(alloc, TraceContextPropagator::new(alloc)?)?)?;
    members.push(Box::new(alloc, BaggagePropagator::new(alloc)?)?)?;
    let composite = TextMapCompositePropagator::new(alloc, members)?;
    Ok(crate::carry::carry(alloc, input, output, &composite))
}

/// The same with a buffer, as in the program.
fn status_of<R: Read + Drop, W: Write + Drop>(
    alloc: Global,
    input: R,
    output: W,
) -> Result<u8, AllocError> {
    let mut output = BufWriter::new(alloc, output).map_err(|_| AllocError)?;
    unbuffered(alloc, input, &mut output)
}

/// Checks the output of the program for this input, and its status.
fn sees(
    rt: &impl Abort,
    alloc: Global,
    input: &[u8],
    text: &str,
    status: u8,
) -> Result<(), AllocError> {
    let mut output = Vec::new(alloc);
    assert_eq!(rt;
        status_of(alloc, input, &mut output)?,
        status,
        "the status for {input:?}"
    );
    let written = str::from_utf8(&output).unwrap_or("not UTF-8");
    assert_eq!(rt; written, text, "what is written for {input:?}");
    Ok(())
}

/// Inputs that are read, with and without a last `\n`, and inputs with a fault of each kind.
const INPUTS: &[&str] = &[
    "",
    "\n",
    "attach a",
    "attach a\n",
    "attach a v=\u{e9}\u{4f60}\u{1f6ab}\nattach b w=2\ndetach 1\n",
    "attach a v=1,w=2\n\n\nattach b\ndetach 0\ndetach 0\ndetach 7",
    "attach",
    "attach \u{e9}\n",
    "attach a v\n",
    "detach x\n",
];

/// The output and the status for the whole input.
fn plainly(alloc: Global, input: &[u8]) -> Result<(Vec<u8>, u8), AllocError> {
    let mut output = Vec::new(alloc);
    let status = status_of(alloc, input, &mut output)?;
    Ok((output, status))
}
