//! Writes the document on the standard input anew, by a tree of it.
use serde_json::Value;
use std::io::{Read, Write};

fn main() -> std::io::Result<()> {
    let mut input = Vec::new();
    std::io::stdin().lock().read_to_end(&mut input)?;
    let value: Value = serde_json::from_slice(&input)?;
    let text = serde_json::to_vec(&value)?;
    std::io::stdout().lock().write_all(&text)
}
