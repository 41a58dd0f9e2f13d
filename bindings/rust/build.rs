//! Links libdebug_names.a.
//!
//! The environment variable DEBUG_NAMES_LIB names the folder that has it; without it that is `crates/debug_names/out` of the repository.

use std::env;
use std::path::{Path, PathBuf};

fn main() {
    println!("cargo::rerun-if-env-changed=DEBUG_NAMES_LIB");
    println!("cargo::rerun-if-changed=build.rs");
    let folder = folder();
    let library = folder.join("libdebug_names.a");
    println!("cargo::rerun-if-changed={}", library.display());
    if library.is_file() {
        println!("cargo::rustc-link-search=native={}", folder.display());
        println!("cargo::rustc-link-lib=static=debug_names");
    } else {
        println!(
            "cargo::error=there is no {}: run `rt lib` in crates/debug_names first, or let DEBUG_NAMES_LIB name its folder",
            library.display()
        );
    }
}

/// The folder of the library. A relative name in DEBUG_NAMES_LIB counts from this package.
fn folder() -> PathBuf {
    let package = PathBuf::from(env::var_os("CARGO_MANIFEST_DIR").expect("cargo sets this"));
    let named = env::var_os("DEBUG_NAMES_LIB").filter(|name| !name.is_empty());
    let folder = package.join(named.map_or(PathBuf::from("../../crates/debug_names/out"), PathBuf::from));
    folder.canonicalize().unwrap_or_else(|_| plain(&folder))
}

/// The folder without `..`, for the message where it does not exist.
fn plain(folder: &Path) -> PathBuf {
    let mut plain = PathBuf::new();
    for part in folder.components() {
        if part.as_os_str() == ".." {
            plain.pop();
        } else {
            plain.push(part);
        }
    }
    plain
}
