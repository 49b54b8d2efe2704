// SPDX-License-Identifier: MIT OR Apache-2.0
//! Links the static library: that of the folder `TAGETESSASH_LIB_DIR`, else the one that `tools/library` writes in the checkout.

use std::path::Path;

fn main() {
    println!("cargo:rerun-if-env-changed=TAGETESSASH_LIB_DIR");
    let folder = std::env::var("TAGETESSASH_LIB_DIR").unwrap_or_else(|_| {
        let checkout = std::env::var("CARGO_MANIFEST_DIR").expect("cargo sets it");
        format!("{checkout}/../../target/staticlib")
    });
    let library = format!("{folder}/libtagetessash.a");
    assert!(
        Path::new(&library).exists(),
        "{library} is not there: run tools/library, or set TAGETESSASH_LIB_DIR to the folder of libtagetessash.a"
    );
    println!("cargo:rustc-link-search=native={folder}");
    println!("cargo:rustc-link-lib=static=tagetessash");
    println!("cargo:rerun-if-changed={library}");
}
