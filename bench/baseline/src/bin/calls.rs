//! Times calls of `serde_json` on the values of standard input, a line per pass: the call, its result, and nanoseconds.

use serde_json::Value;
use std::hint::black_box;
use std::time::Instant;

const PASSES: usize = 15;

fn equal(values: &[Value], others: &[Value]) -> usize {
    values.iter().zip(others).filter(|(value, other)| black_box(value) == black_box(other)).count()
}

fn found(objects: &[Value], keys: &[Value]) -> usize {
    objects.iter().filter_map(Value::as_object).map(|object| {
        keys.iter().filter_map(Value::as_str).filter(|key| black_box(object).contains_key(*key)).count()
    }).sum()
}

fn copied(values: &[Value]) -> usize {
    values.iter().map(|value| black_box(black_box(value).clone())).count()
}

fn written(values: &[Value]) -> usize {
    values.iter().map(|value| serde_json::to_string(black_box(value)).unwrap().len()).sum()
}

fn read(texts: &[Value]) -> usize {
    let value = |text: &str| serde_json::from_str::<Value>(black_box(text)).unwrap();
    texts.iter().filter_map(Value::as_str).filter(|text| value(text).as_object().unwrap().contains_key("id")).count()
}

fn timed(name: &str, calls: impl FnOnce() -> usize) {
    let start = Instant::now();
    let given = calls();
    println!("{name} {given} {}", start.elapsed().as_nanos());
}

fn main() -> Result<(), Box<dyn std::error::Error>> {
    let text = std::io::read_to_string(std::io::stdin())?;
    let document: Value = serde_json::from_str(&text)?;
    let again: Value = serde_json::from_str(&text)?;
    let items = |name: &str| document[name].as_array().unwrap();
    for _ in 0..PASSES {
        for size in ["4", "64", "100000"] {
            let (objects, keys) = (items(&format!("objects of {size}")), items(&format!("keys of {size}")));
            timed(&format!("look-up/{size}"), || found(objects, keys));
        }
        timed("equality", || equal(items("values"), again["values"].as_array().unwrap()));
        timed("clone", || copied(items("values")));
        timed("to_json", || written(items("values")));
        for size in ["200", "2000"] {
            let texts = items(&format!("texts of {size}"));
            timed(&format!("new-cache/{size}"), || read(texts));
            timed(&format!("warm-cache/{size}"), || read(texts));
        }
    }
    Ok(())
}
