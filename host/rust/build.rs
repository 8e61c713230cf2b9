//! Finds the monitor's C library and links it.

use std::env;
use std::path::{Path, PathBuf};

const LIBRARY: &str = "libexport.a";
const VARIABLE: &str = "TREADLEMINT_LIB";
const DEFAULT_FOLDER: &str = "../../crates/export/out";

fn main() {
    let folder = folder();
    let library = folder.join(LIBRARY);
    println!("cargo::rerun-if-env-changed={VARIABLE}");
    println!("cargo::rerun-if-changed={}", library.display());
    if !library.is_file() {
        println!(
            "cargo::error=no {LIBRARY} in {}: build the C library first, \
             or name its folder in {VARIABLE}",
            folder.display()
        );
        return;
    }
    println!("cargo::rustc-link-search=native={}", folder.display());
    println!("cargo::rustc-link-lib=static=export");
}

/// The folder of the library, as an absolute path where it exists.
fn folder() -> PathBuf {
    let named = env::var_os(VARIABLE).filter(|name| !name.is_empty());
    let manifest = env::var_os("CARGO_MANIFEST_DIR").unwrap_or_default();
    let folder = match named {
        Some(name) => PathBuf::from(name),
        None => Path::new(&manifest).join(DEFAULT_FOLDER),
    };
    folder.canonicalize().unwrap_or(folder)
}
