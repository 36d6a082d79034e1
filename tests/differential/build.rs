//! Links the static library that `make library` makes; BOOK_LIB names another folder.

use std::env;

fn main() {
    let own = format!("{}/../../target/staticlib", env!("CARGO_MANIFEST_DIR"));
    let folder = env::var("BOOK_LIB").unwrap_or(own);
    println!("cargo:rustc-link-search=native={folder}");
    println!("cargo:rustc-link-lib=static=unit");
    println!("cargo:rerun-if-env-changed=BOOK_LIB");
    println!("cargo:rerun-if-changed={folder}/libunit.a");
}
