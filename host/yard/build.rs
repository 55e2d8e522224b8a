// Links libyard.a: the one in $YARD_LIB_DIR, else the one that tools/library makes in this repository.
use std::{env, path::Path};

fn main() {
    let made = Path::new(&env::var("CARGO_MANIFEST_DIR").unwrap()).join("../../target/staticlib");
    let dir = env::var("YARD_LIB_DIR").unwrap_or_else(|_| made.display().to_string());
    println!("cargo:rerun-if-env-changed=YARD_LIB_DIR");
    println!("cargo:rerun-if-changed={dir}/libyard.a");
    println!("cargo:rustc-link-search=native={dir}");
    println!("cargo:rustc-link-lib=static=yard");
}
