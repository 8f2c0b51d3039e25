//! Log records, loggers and their providers.
mod noop;
