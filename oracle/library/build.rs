//! Links the archive that `bindings/archive` writes, or the one in the folder that KATMOS_AT names.

fn main() {
    let archive = std::env::var("KATMOS_AT").unwrap_or(concat!(env!("CARGO_MANIFEST_DIR"), "/../../target/staticlib").to_string());
    println!("cargo:rustc-link-search=native={archive}");
    println!("cargo:rustc-link-lib=static=katmos");
    println!("cargo:rerun-if-env-changed=KATMOS_AT");
    println!("cargo:rerun-if-changed={archive}/libkatmos.a");
}
