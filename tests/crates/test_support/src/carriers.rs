//! Maps of texts.
use std::alloc::{AllocError, Global};
use std::collections::HashMap;

/// A map with these texts, inserted directly.
pub fn map_of(
    alloc: Global,
    pairs: &[(&str, &str)],
) -> Result<HashMap<String, String>, AllocError> {
    let mut texts: HashMap<String, String> = HashMap::new(alloc);
    for (key, value) in pairs {
        texts.insert(
            String::from_str(alloc, key)?,
            String::from_str(alloc, value)?,
        )?;
    }
    Ok(texts)
}

/// The text of a map under exactly this key, or `none`.
pub fn held<'a>(texts: &'a HashMap<String, String>, key: &str) -> &'a str {
    match texts.get(key) {
        Some(value) => value.as_str(),
        None => "none",
    }
}
