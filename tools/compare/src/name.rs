//! The name of a section, and the files in which it is saved.

use std::fmt::{self, Display};
use std::fs;
use std::path::PathBuf;

use gimli::case::Case;

/// Which section is compared.
#[derive(Clone, Copy)]
pub enum Name {
    /// The section of a seed with that number.
    Made { seed: u64, number: u64 },
    /// One of `limits`, which is zeros alone.
    Long,
}

impl Display for Name {
    fn fmt(&self, out: &mut fmt::Formatter) -> fmt::Result {
        match self {
            Name::Made { seed, number } => write!(out, "section {number} of seed {seed}"),
            Name::Long => write!(out, "a section of 2,147,483,647 zeros or one more"),
        }
    }
}

impl Name {
    /// Writes .debug_names and .debug_str beside the program, in the build folder, and says so.
    pub fn save(&self, case: &Case) {
        let Name::Made { seed, number } = self else { return };
        let program = std::env::current_exe().unwrap_or_default();
        let folder = program.parent().map(PathBuf::from).unwrap_or_default();
        for (ending, bytes) in [("names", &case.names), ("str", &case.strings)] {
            let file = folder.join(format!("section-{seed}-{number}.{ending}"));
            match fs::write(&file, bytes) {
                Ok(()) => println!("saved {} ({} bytes)", file.display(), bytes.len()),
                Err(error) => println!("cannot save {}: {error}", file.display()),
            }
        }
        println!("again: tools/compare/run --seed {seed} --only {number}");
    }
}
