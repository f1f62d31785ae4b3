//! Links the proved library, from the folder that SOTJARN_LIB_DIR names or else from the repository's target/staticlib.

use std::env;
use std::path::{Path, PathBuf};

fn main() {
    let here = env::var_os("CARGO_MANIFEST_DIR").expect("cargo sets it");
    let named = env::var_os("SOTJARN_LIB_DIR").map(PathBuf::from);
    let folder = named.unwrap_or_else(|| Path::new(&here).join("../../target/staticlib"));
    println!("cargo:rerun-if-env-changed=SOTJARN_LIB_DIR");
    println!("cargo:rerun-if-changed={}", folder.join("libsotjarn.a").display());
    println!("cargo:rustc-link-search=native={}", folder.display());
}
