//! Worked examples of printed texts, equality, hashes and severities, and each public call once with ample memory.
#![tactic(auto)]

mod any_value;
mod array;
mod key;
mod key_value;
mod scope;
mod severity;
mod string_value;
mod value;

use std::hash::{DefaultHasher, Hash, Hasher};

fn hash_of<T: Hash>(value: &T) -> u64 {
    let mut state = DefaultHasher::new();
    value.hash(&mut state);
    state.finish()
}
