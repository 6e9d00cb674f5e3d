//! Random texts, each with the answer that `serde_json` gives: `compact`, `get` and `merge_patch` on 20,000 texts each, and `equal`, `canonical` and
//! `hash` on 20,000 pairs of objects, where results of the last two are compared with each other only. Which changed texts are accepted is compared
//! too, except for numbers out of range.
use beside_serde_json::Random;
use ijson_proved::{canonical, compact, equal, get, hash, merge_patch, Error};
use serde_json::{from_str, Map, Value};

const TEXTS: usize = 20_000;

/// Returns a target after a merge patch, by RFC 7396, section 2.
fn patched(target: Value, patch: Value) -> Value {
    let Value::Object(patch) = patch else {
        return patch;
    };
    let mut members = match target {
        Value::Object(members) => members,
        _ => Map::new(),
    };
    for (key, value) in patch {
        let old = members.remove(&key).unwrap_or(Value::Null);
        if !value.is_null() {
            members.insert(key, patched(old, value));
        }
    }
    Value::Object(members)
}

#[test]
fn texts_are_compacted_as_serde_json_does() {
    let mut random = Random::new(1);
    for _ in 0..TEXTS {
        let text = random.value(5);
        let value: Value = from_str(&text).unwrap();
        assert_eq!(compact(&text), Ok(value.to_string()), "{text}");
    }
}

#[test]
fn the_same_texts_are_accepted() {
    let mut random = Random::new(2);
    let mut accepted = 0;
    for _ in 0..TEXTS {
        let text = random.value(3);
        let Some(text) = random.changed(&text) else {
            continue;
        };
        let is_json = from_str::<Value>(&text).is_ok();
        accepted += usize::from(is_json);
        let answer = compact(&text);
        // `serde_json` has no limit of exponents with this feature
        if !matches!(answer, Err(Error::NumberRange { .. })) {
            assert_eq!(answer.is_ok(), is_json, "{text}");
        }
    }
    assert!(accepted > TEXTS / 10 && accepted < TEXTS * 9 / 10, "{accepted}");
}

#[test]
fn the_same_values_are_equal() {
    let mut random = Random::new(3);
    let mut equals = 0;
    for _ in 0..TEXTS {
        let (first, second) = (random.object(1), random.object(1));
        let mut members: Vec<(String, Value)> = from_str::<Map<String, Value>>(&first).unwrap().into_iter().collect();
        members.reverse();
        let turned = Value::Object(members.into_iter().collect()).to_string();
        for other in [&second, &turned] {
            let want = from_str::<Value>(&first).unwrap() == from_str::<Value>(other).unwrap();
            equals += usize::from(want);
            assert_eq!(equal(&first, other), Ok(want), "{first} {other}");
            assert_eq!(canonical(&first) == canonical(other), want, "{first} {other}");
            assert!(!want || hash(7, &first) == hash(7, other), "{first} {other}");
        }
    }
    assert!(equals >= TEXTS && equals < TEXTS * 2, "{equals}");
}

#[test]
fn pointers_lead_to_the_same_values() {
    let mut random = Random::new(4);
    let mut found = 0;
    for _ in 0..TEXTS {
        let (text, pointer) = (random.object(4), random.pointer());
        let want = from_str::<Value>(&text).unwrap().pointer(&pointer).map(Value::to_string);
        found += usize::from(want.is_some() && !pointer.is_empty());
        assert_eq!(get(&text, &pointer).ok(), want, "{text} {pointer}");
    }
    assert!(found > TEXTS / 50, "{found}");
}

#[test]
fn patches_give_the_same_values() {
    let mut random = Random::new(5);
    for _ in 0..TEXTS {
        let (target, patch) = (random.value(3), random.value(3));
        let want = patched(from_str(&target).unwrap(), from_str(&patch).unwrap());
        let merged = merge_patch(&target, &patch).unwrap();
        assert_eq!(from_str::<Value>(&merged).unwrap(), want, "{target} {patch}");
    }
}
