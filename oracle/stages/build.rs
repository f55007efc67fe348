//! Links the archive that `bindings/archive stages` writes, or the one in the folder that STAGES_AT names.

fn main() {
    let archive = std::env::var("STAGES_AT").unwrap_or(concat!(env!("CARGO_MANIFEST_DIR"), "/../../target/staticlib").to_string());
    println!("cargo:rustc-link-search=native={archive}");
    println!("cargo:rustc-link-lib=static=stages");
    println!("cargo:rerun-if-env-changed=STAGES_AT");
    println!("cargo:rerun-if-changed={archive}/libstages.a");
}
