//! Links libdebug_names.a: the environment variable DEBUG_NAMES_LIB names its folder.

use std::path::PathBuf;

fn main() {
    println!("cargo::rerun-if-env-changed=DEBUG_NAMES_LIB");
    println!("cargo::rerun-if-changed=build.rs");
    let folder = std::env::var_os("DEBUG_NAMES_LIB").map(PathBuf::from);
    let folder = folder.expect("DEBUG_NAMES_LIB must name the folder of libdebug_names.a: see README.md");
    println!("cargo::rerun-if-changed={}", folder.join("libdebug_names.a").display());
    println!("cargo::rustc-link-search=native={}", folder.display());
    println!("cargo::rustc-link-lib=static=debug_names");
}
