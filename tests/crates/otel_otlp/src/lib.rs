//! Properties of the lines of JSON that no clause states: their text, byte by byte, and the lines
//! of a writer that fails.
// Depends on: otel_sdk test_support
#![tactic(auto)]

mod append_file;
mod batches;
mod deep_trees;
mod env_logger;
mod failures;
mod files;
mod flushes;
mod http_exporter;
mod http_texts;
mod http_waits;
mod lines;
mod log_files;
mod log_lines;
mod many_scopes;
mod pipes;
mod reads;
mod reads_hostile;
mod reads_logs;
mod reads_logs_refused;
mod reads_refused;
mod reads_resources;
mod records;
mod stream_client;
mod writes;
