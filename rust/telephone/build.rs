//! Links the static library that `scripts/library` writes to the repository's `target/staticlib`, or the one in the folder that TELEPHONE_LIB
//! names.

use std::env::{var, var_os};
use std::path::PathBuf;

fn main() {
    let repository =
        || PathBuf::from(var_os("CARGO_MANIFEST_DIR").unwrap()).join("../../target/staticlib");
    let folder = var_os("TELEPHONE_LIB").map_or_else(repository, PathBuf::from);
    let archive = folder.join("libtelephone.a");
    println!("cargo:rerun-if-env-changed=TELEPHONE_LIB");
    println!("cargo:rerun-if-changed={}", archive.display());
    assert!(archive.exists(), "no {}: run `scripts/library` first", archive.display());
    assert_eq!(
        var("CARGO_CFG_TARGET_ARCH").unwrap(),
        "x86_64",
        "the library is compiled for x86-64"
    );
    println!("cargo:rustc-link-search=native={}", folder.display());
    println!("cargo:rustc-link-lib=static=telephone");
}
