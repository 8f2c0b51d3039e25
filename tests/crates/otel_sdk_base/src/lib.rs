//! Properties of resources, queues and errors that no clause states: calls succeed, printed texts,
//! and worked cases.
#![tactic(auto)]

mod clock;
mod error;
mod queue;
mod resource;
