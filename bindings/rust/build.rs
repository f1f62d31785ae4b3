//! With the feature `proved`, finds libsotjarn.a: in the folder that SOTJARN_LIB_DIR names, or else in the repository's target/staticlib.

use std::env;
use std::path::{Path, PathBuf};
use std::process::exit;

const VARIABLE: &str = "SOTJARN_LIB_DIR";
const LIBRARY: &str = "libsotjarn.a";

/// The folder to look in.
fn folder() -> PathBuf {
    match env::var_os(VARIABLE) {
        Some(named) if !named.is_empty() => PathBuf::from(named),
        _ => Path::new(&env::var_os("CARGO_MANIFEST_DIR").expect("cargo sets it")).join("../../target/staticlib"),
    }
}

fn main() {
    println!("cargo:rerun-if-changed=build.rs");
    if env::var_os("CARGO_FEATURE_PROVED").is_none() {
        return;
    }
    println!("cargo:rerun-if-env-changed={VARIABLE}");
    let folder = folder();
    println!("cargo:rerun-if-changed={}", folder.join(LIBRARY).display());
    match folder.canonicalize() {
        Ok(whole) if whole.join(LIBRARY).is_file() => {
            println!("cargo:rustc-link-search=native={}", whole.display());
            println!("cargo:rustc-link-lib=static=sotjarn");
        }
        _ => {
            eprintln!("{LIBRARY} is missing: it is not in {}.", folder.display());
            eprintln!("Run `make library` first, at the root of the repository: it writes target/staticlib/{LIBRARY}.");
            eprintln!("Without the feature `proved` the crate uses the portable engine and needs no library.");
            eprintln!("Where the library stands elsewhere, set {VARIABLE} to its folder.");
            exit(1);
        }
    }
}
