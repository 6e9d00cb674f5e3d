//! JSON with exact decimals, by functions that are proved: text in, text out.
//!
//! ```
//! use ijson_proved::{canonical, compact, equal, get, hash, merge_patch, Error};
//!
//! assert!(equal(r#"{"a": 1.0, "b": [100]}"#, r#"{"b": [1e2], "a": 1.00}"#)?);
//! assert_eq!(compact(r#" {"price": 0.10, "price": 0.30} "#)?, r#"{"price":0.3}"#);
//! assert_eq!(canonical(r#"{"b": 2.0, "a": [10, 0.0]}"#)?, r#"{"a":[1e1,0],"b":2e0}"#);
//! assert_eq!(get(r#"{"servers": [{"port": 80}]}"#, "/servers/0/port")?, "80");
//! assert_eq!(merge_patch(r#"{"a": 1, "b": 2}"#, r#"{"a": null, "c": 3}"#)?, r#"{"b":2,"c":3}"#);
//! assert_eq!(hash(7, "[1, 2]")?, hash(7, "[1.0, 2.0]")?);
//! assert_eq!(compact("[1 2]"), Err(Error::Syntax { text: 0, offset: 3 }));
//! # Ok::<(), Error>(())
//! ```

mod border;
mod calls;
mod status;

pub use calls::{canonical, compact, equal, get, hash, merge_patch, Error};
