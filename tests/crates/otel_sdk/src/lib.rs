//! Properties of tracers, samplers, id generators, processors and exporters that no clause states:
//! calls succeed, printed texts, and worked cases.
#![tactic(auto)]

// Depends on: anyhow otel_otlp otel_waterfall test_support

mod baggage_processor;
mod builders;
mod calls;
mod disabled;
mod env;
mod env_otlp;
mod errors;
mod exporter;
mod exports;
mod from_env;
mod id_generator;
mod interleaved;
mod last_export;
mod losses;
mod processor;
mod processors;
mod propagator;
mod rate;
mod ratio;
mod recipes;
mod runs;
mod sampler;
mod schedule;
mod shown;
mod tracer;
mod traces;
mod tracing;
