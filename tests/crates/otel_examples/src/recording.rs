//! Recording spans and loggers, and their providers.

mod logger;
mod span;
mod tracer;
