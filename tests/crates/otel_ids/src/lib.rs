//! Facts that no clause states: rows of outside documents, printed texts, limits and odd inputs.
#![tactic(auto)]

mod ids_and_flags;
mod span_context;
mod trace_state;
