//! Links the archive that `bindings/archive` writes: the one in the directory KATMOS_LIB, or the repository's own.

use std::env::var;
use std::path::PathBuf;

fn main() {
    let arch = var("CARGO_CFG_TARGET_ARCH").unwrap_or_default();
    assert!(arch == "x86_64", "libkatmos.a is for x86-64, and this is {arch}: build with oracle/cargo86");
    let own = concat!(env!("CARGO_MANIFEST_DIR"), "/../../target/staticlib");
    let place = PathBuf::from(var("KATMOS_LIB").unwrap_or(own.into()));
    let archive = place.join("libkatmos.a");
    assert!(archive.is_file(), "no {}: write it by bindings/archive, or let KATMOS_LIB name its directory", archive.display());
    println!("cargo:rerun-if-env-changed=KATMOS_LIB");
    println!("cargo:rerun-if-changed={}", archive.display());
    println!("cargo:rustc-link-search=native={}", place.display());
    println!("cargo:rustc-link-lib=static=katmos");
}
