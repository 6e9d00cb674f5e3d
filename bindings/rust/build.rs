//! Links the static library that `bindings/build` makes, or the one in the folder that `IJSON_FOLDER` names.
use std::env;
use std::path::PathBuf;

fn main() {
    let folder = match env::var_os("IJSON_FOLDER") {
        Some(folder) => PathBuf::from(folder),
        None => PathBuf::from(env::var_os("CARGO_MANIFEST_DIR").expect("cargo sets it")).join("../out"),
    };
    let library = folder.join("libijson.a");
    assert!(
        library.exists(),
        "{} is missing: run bindings/build, or set IJSON_FOLDER to the folder of libijson.a",
        library.display()
    );
    println!("cargo:rustc-link-search=native={}", folder.display());
    println!("cargo:rustc-link-lib=static=ijson");
    println!("cargo:rerun-if-changed={}", library.display());
    println!("cargo:rerun-if-env-changed=IJSON_FOLDER");
}
