//! Times `serde_json` as `passes_of_ijson` does this library: reading, writing, dropping and cloning the value of standard input; the
//! first argument is the number of passes, 1 if there is none.

use serde_json::Value;
use std::io::Write;
use std::time::Instant;

type Failure = Box<dyn std::error::Error>;

/// Times one pass, and returns its text.
fn pass(text: &str) -> Result<String, Failure> {
    let start = Instant::now();
    let value: Value = serde_json::from_str(text)?;
    let reading = start.elapsed().as_nanos();
    let start = Instant::now();
    let written = serde_json::to_string(&value)?;
    let writing = start.elapsed().as_nanos();
    let start = Instant::now();
    let copy = value.clone();
    let cloning = start.elapsed().as_nanos();
    drop(copy);
    let start = Instant::now();
    drop(value);
    let dropping = start.elapsed().as_nanos();
    eprintln!("{reading} {writing} {dropping} {cloning} {}", written.len());
    Ok(written)
}

fn main() -> Result<(), Failure> {
    let passes: usize = std::env::args().nth(1).map_or(Ok(1), |count| count.parse())?;
    let text = std::io::read_to_string(std::io::stdin())?;
    for _ in 1..passes {
        pass(&text)?;
    }
    let written = pass(&text)?;
    std::io::stdout().write_all(written.as_bytes())?;
    Ok(())
}
