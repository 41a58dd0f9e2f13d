//! Brings gimli's own files into the build folder, unmodified.
//!
//! They are not kept in this repository: the environment variable GIMLI_SRC names the folder `src` of gimli 0.34.0. What is copied
//! goes to Cargo's OUT_DIR, which lies in target/. Beside the copies go stand-ins for the other modules that gimli's read/mod.rs
//! declares, empty but for one item, and a file `modules.rs` that declares gimli's modules at the places of the copies; src/lib.rs
//! includes it.

use std::fs;
use std::path::{Path, PathBuf};

/// The files of gimli that are compiled, below its `src`.
const FILES: [&str; 8] = [
    "common.rs",
    "endianity.rs",
    "leb128.rs",
    "read/endian_slice.rs",
    "read/mod.rs",
    "read/names.rs",
    "read/reader.rs",
    "read/str.rs",
];

/// The modules that read/mod.rs declares and that nothing here needs: each is an empty file.
const EMPTY: [&str; 18] = [
    "abbrev", "addr", "aranges", "cfi", "dwarf", "index", "line", "loclists", "lookup", "macros",
    "op", "pubnames", "pubtypes", "relocate", "rnglists", "unit", "util", "value",
];

/// read/mod.rs names one item of this module, so that it cannot be empty.
const LISTS: &str = "pub struct ListsHeader;\n";

/// gimli's modules at the root of the crate.
const ROOT: [&str; 4] = ["common", "endianity", "leb128", "read"];

fn main() {
    println!("cargo::rerun-if-env-changed=GIMLI_SRC");
    println!("cargo::rerun-if-changed=build.rs");
    let source = std::env::var_os("GIMLI_SRC")
        .map(PathBuf::from)
        .expect("GIMLI_SRC must name the folder `src` of gimli 0.34.0: see README.md");
    let out = PathBuf::from(std::env::var_os("OUT_DIR").unwrap());
    fs::create_dir_all(out.join("read")).unwrap();
    copy_files(&source, &out);
    write_stand_ins(&out);
    write_modules(&out);
}

fn copy_files(source: &Path, out: &Path) {
    for file in FILES {
        let from = source.join(file);
        println!("cargo::rerun-if-changed={}", from.display());
        let bytes = fs::read(&from).unwrap_or_else(|e| panic!("{}: {e}", from.display()));
        fs::write(out.join(file), bytes).unwrap();
    }
}

fn write_stand_ins(out: &Path) {
    for module in EMPTY {
        fs::write(out.join("read").join(module).with_extension("rs"), "").unwrap();
    }
    fs::write(out.join("read/lists.rs"), LISTS).unwrap();
}

/// Modules by their whole paths: an included file has no folder of its own to look in.
fn write_modules(out: &Path) {
    let mut text = String::new();
    for module in ROOT {
        let file = match module {
            "read" => out.join("read/mod.rs"),
            _ => out.join(module).with_extension("rs"),
        };
        text += &format!("#[path = {:?}]\npub mod {module};\n", file.display().to_string());
    }
    fs::write(out.join("modules.rs"), text).unwrap();
}
