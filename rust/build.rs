//! Links the proved library: libunit.a in the folder that BOOK_LIB names, else where `make library` puts it in this repository.

use std::{env, path::PathBuf};

fn main() {
    let here = env::var_os("CARGO_MANIFEST_DIR").expect("cargo names the package's folder");
    let folder = env::var_os("BOOK_LIB").map_or_else(
        || PathBuf::from(here).join("../target/staticlib"),
        PathBuf::from,
    );
    let archive = folder.join("libunit.a");
    assert!(
        archive.is_file(),
        "no {}: run `make library`, or set BOOK_LIB to the library's folder",
        archive.display()
    );
    println!("cargo:rerun-if-env-changed=BOOK_LIB");
    println!("cargo:rerun-if-changed={}", archive.display());
    println!("cargo:rustc-link-search=native={}", folder.display());
    println!("cargo:rustc-link-lib=static=unit");
}
