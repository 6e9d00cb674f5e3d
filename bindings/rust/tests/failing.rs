//! Each allocation of the library fails in turn. `bindings/check` links a library with `fail_at` of c/failing.c.
use ijson_proved::{canonical, compact, equal, get, hash, merge_patch, Error};
use std::ffi::c_long;
use std::fmt::Debug;

extern "C" {
    static mut fail_at: c_long;
}

const OWNER: &str = r#"{"a":["a string of more than 7 bytes",1234567890123456789012345678901234567890]}"#;

/// Checks that a call returns `Error::Memory` if an allocation fails, or its result if that was to shrink a list.
fn each_failure_is_returned<T: Debug + PartialEq>(call: impl Fn() -> Result<T, Error>) {
    let want = call();
    let mut errors = 0;
    for number in 1.. {
        unsafe { fail_at = number };
        let got = call();
        errors += usize::from(got == Err(Error::Memory));
        assert!(got == want || got == Err(Error::Memory), "{got:?}");
        if unsafe { fail_at } > 0 {
            break;
        }
    }
    unsafe { fail_at = 0 };
    assert!(errors > 3, "{errors}");
}

#[test]
fn each_failed_allocation_is_an_error() {
    each_failure_is_returned(|| compact(OWNER));
    each_failure_is_returned(|| canonical(OWNER));
    each_failure_is_returned(|| get(OWNER, "/a"));
    each_failure_is_returned(|| merge_patch(OWNER, OWNER));
    each_failure_is_returned(|| equal(OWNER, OWNER));
    each_failure_is_returned(|| hash(1, OWNER));
}
