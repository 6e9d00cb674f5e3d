//! A peer of the benchmark: reads a JSON text of standard input into a `serde_json::Value`, and writes it compactly. With an argument it
//! drops the value, else the process ends with it.

use serde_json::Value;
use std::io::{Read, Write};

fn main() -> Result<(), Box<dyn std::error::Error>> {
    let mut bytes = Vec::new();
    std::io::stdin().read_to_end(&mut bytes)?;
    let value: Value = serde_json::from_slice(&bytes)?;
    let mut text = serde_json::to_vec(&value)?;
    text.push(b'\n');
    std::io::stdout().write_all(&text)?;
    if std::env::args().len() < 2 {
        std::mem::forget(value);
    }
    Ok(())
}
