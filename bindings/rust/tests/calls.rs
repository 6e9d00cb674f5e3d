//! Texts and what each call returns for them.
use ijson_proved::{canonical, compact, equal, get, hash, merge_patch, Error};

#[test]
fn texts_are_compacted() {
    for (text, want) in [
        (" [ ] ", "[]"),
        (
            "[1.50, 1e2, -0.0, 12345678901234567890123]",
            "[1.5,100.0,0.0,12345678901234567890123]",
        ),
        ("{\"k\": 1, \"l\": 2, \"k\": 3}", "{\"k\":3,\"l\":2}"),
        ("\"\\u00e9\\/\\n\"", "\"é/\\n\""),
    ] {
        assert_eq!(compact(text), Ok(want.to_string()));
    }
    let long = format!("[{}1]", "1e20,".repeat(1000));
    assert_eq!(compact(long).map(|text| text.len()), Ok(1000 * 24 + 3));
}

#[test]
fn faults_have_their_place() {
    assert_eq!(compact(b"[\"\xff\"]"), Err(Error::NotUtf8 { text: 0 }));
    assert_eq!(compact("[1,"), Err(Error::Syntax { text: 0, offset: 3 }));
    assert_eq!(canonical("[".repeat(128)), Err(Error::TooDeep { text: 0, offset: 127 }));
    assert_eq!(equal("1", "[1e2000000000]"), Err(Error::NumberRange { text: 1, offset: 1 }));
    assert_eq!(merge_patch("{}", "01"), Err(Error::Syntax { text: 1, offset: 1 }));
    assert_eq!(merge_patch("{", "01"), Err(Error::Syntax { text: 0, offset: 1 }));
}

#[test]
fn equal_values_have_one_canonical_text_and_hash() {
    for (first, second, want) in [
        ("{\"b\":2.0,\"a\":[10,0.0]}", "{\"a\":[1e1,-0],\"b\":2}", true),
        ("[1,2]", "[2,1]", false),
        ("\"1\"", "1", false),
        ("0.1", "0.1000000000000000055511151231257827", false),
        ("1e400", "10e399", true),
    ] {
        assert_eq!(equal(first, second), Ok(want));
        assert_eq!(canonical(first) == canonical(second), want);
        assert_eq!(hash(1, first) == hash(1, second), want);
    }
    assert_ne!(hash(1, "1"), hash(2, "1"));
}

#[test]
fn pointers_refer_to_values() {
    let text = "{\"a\": [1.50, {\"b/~\": null}]}";
    assert_eq!(get(text, ""), Ok("{\"a\":[1.5,{\"b/~\":null}]}".to_string()));
    assert_eq!(get(text, "/a/0"), Ok("1.5".to_string()));
    assert_eq!(get(text, "/a/1/b~1~0"), Ok("null".to_string()));
    assert_eq!(get(text, "/a/01"), Err(Error::Nothing));
    assert_eq!(get(text, "/a/2"), Err(Error::Nothing));
    assert_eq!(get(text, "a"), Err(Error::NotPointer));
    assert_eq!(get(text, "/a~2"), Err(Error::NotPointer));
    assert_eq!(get(text, b"/\xff"), Err(Error::NotPointer));
}

#[test]
fn patches_are_applied() {
    for (target, patch, want) in [
        ("{\"a\":1,\"b\":2}", "{\"a\":3}", "{\"a\":3,\"b\":2}"),
        (
            "{\"a\":{\"b\":\"c\"}}",
            "{\"a\":{\"b\":\"d\",\"c\":null}}",
            "{\"a\":{\"b\":\"d\"}}",
        ),
        ("[1,2]", "{\"a\":\"b\",\"c\":null}", "{\"a\":\"b\"}"),
        ("{\"a\":\"foo\"}", "null", "null"),
    ] {
        assert_eq!(merge_patch(target, patch), Ok(want.to_string()));
    }
}
