//! The callers of the SDK.

mod emitted;
mod log_line;
mod request;
mod traced;
