//! The text forms of the vectors: hexadecimal bytes, and stores as
//! `index=value` (0 to 31 the scalars, 32 + 64 × a + i an array's value).

use crate::naive::run::{ARRAY_VALUES, SCALARS};
use std::path::Path;

pub fn hex_of(bytes: &[u8]) -> String {
    let mut text = String::new();
    for byte in bytes {
        text.push_str(&format!("{byte:02x}"));
    }
    text
}

pub fn bytes_of_hex(text: &str) -> Result<Vec<u8>, String> {
    if text.len() % 2 != 0 {
        return Err("an odd number of hexadecimal digits".to_string());
    }
    let mut bytes = Vec::new();
    for i in (0..text.len()).step_by(2) {
        let two = text.get(i..i + 2).unwrap_or_default();
        bytes.push(u8::from_str_radix(two, 16).map_err(|_| format!("`{two}` is no byte in hexadecimal"))?);
    }
    Ok(bytes)
}

/// A row's bytes: hexadecimal, or `file:NAME` for a file beside the rows.
pub fn bytes_of_field(field: &str, rows: &Path) -> Result<Vec<u8>, String> {
    match field.strip_prefix("file:") {
        None => bytes_of_hex(field),
        Some(name) => {
            let path = rows.with_file_name(name);
            std::fs::read(&path).map_err(|error| format!("{}: {error}", path.display()))
        }
    }
}

/// A whole store, scalars first.
pub fn store_of(text: &str) -> Result<Vec<i64>, String> {
    let mut store = vec![0i64; SCALARS + ARRAY_VALUES];
    for part in text.split(',').filter(|p| !p.trim().is_empty()) {
        let (index, value) = part.trim().split_once('=').ok_or(format!("no = in `{part}`"))?;
        let place = index.parse().ok().and_then(|index: usize| store.get_mut(index));
        let place = place.ok_or(format!("index `{index}` is no number from 0 to {}", SCALARS + ARRAY_VALUES - 1))?;
        *place = value.parse().map_err(|_| format!("value `{value}` is no signed 64-bit number"))?;
    }
    Ok(store)
}

/// The values of `new` that differ from those of `old`.
pub fn changes_of(old: &[i64], new: &[i64]) -> String {
    let mut parts = Vec::new();
    for i in 0..new.len() {
        if old[i] != new[i] {
            parts.push(format!("{i}={}", new[i]));
        }
    }
    parts.join(",")
}
