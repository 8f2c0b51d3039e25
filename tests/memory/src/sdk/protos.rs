//! Batches in Protocol Buffers.
use crate::lines::Lines;
use crate::sdk::json::{full, resource};
use crate::sdk::json_logs;
use otel_proto_batches::{logs_bytes, traces_bytes};
use std::alloc::{AllocError, Global};

pub fn play<R: Print>(alloc: Global, lines: &Lines<'_, R>) {
    if lines.begin("proto-traces") {
        lines.end(traces(alloc, lines));
    }
    if lines.begin("proto-logs") {
        lines.end(logs(alloc, lines));
    }
}

/// Prints the number of bytes, or the error.
fn traces<R: Print>(alloc: Global, lines: &Lines<'_, R>) -> Result<(), AllocError> {
    let resource = resource(alloc)?;
    let batch = [full(alloc)?];
    let bytes = traces_bytes(alloc, &resource, &batch);
    lines.answer_of(bytes.map(|bytes| bytes.len()));
    Ok(())
}

/// Prints the number of bytes, or the error.
fn logs<R: Print>(alloc: Global, lines: &Lines<'_, R>) -> Result<(), AllocError> {
    let resource = resource(alloc)?;
    let batch = [json_logs::full(alloc)?];
    let bytes = logs_bytes(alloc, &resource, &batch);
    lines.answer_of(bytes.map(|bytes| bytes.len()));
    Ok(())
}
