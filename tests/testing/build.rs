// SPDX-License-Identifier: MIT OR Apache-2.0
//! Links the static library that `tools/test-library` writes, or that of the folder `TESTING_LIB_DIR`.

use std::path::Path;

fn main() {
    println!("cargo:rerun-if-env-changed=TESTING_LIB_DIR");
    let folder = std::env::var("TESTING_LIB_DIR").unwrap_or_else(|_| {
        let folder = std::env::var("CARGO_MANIFEST_DIR").expect("cargo sets it");
        format!("{folder}/../../target/staticlib")
    });
    let library = format!("{folder}/libtesting.a");
    assert!(
        Path::new(&library).exists(),
        "libtesting.a is not there: run tools/test-library first"
    );
    println!("cargo:rustc-link-search=native={folder}");
    println!("cargo:rustc-link-lib=static=testing");
    println!("cargo:rerun-if-changed={library}");
}
