//! check NAMES STR: says whether lookups by hash list every name of a program, and names the first one that they miss. It is
//! examples/check.cpp of the repository in Rust.
//!
//! NAMES and STR are files with the sections .debug_names and .debug_str of a little-endian program, as objcopy writes them. For each
//! index one line is written, with its place in .debug_names, and it is one of
//!
//!     index 0x0: complete
//!     index 0x0: no hash table
//!     index 0x0: 2 names missed, the first is name 1 hash 0x7 "de"
//!
//! The last has how many names are missed, and of the one with the smallest number that number, the hash that is stored for it, and its
//! string; where that cannot be read, why stands in its place: refused 1 UnexpectedEof 4. The exit status is
//!
//!     0   where every index is complete or has no hash table
//!     1   where names of an index are missed
//!     2   with a message on stderr: a call is refused, which ends the program ("refused 1 UnexpectedEof 4": its number, its name, and
//!         its value in decimal), or there are not two arguments, or a file cannot be read

use debug_names::{DebugNames, DebugStr, Error, LittleEndian, LostName, NameIndexHeader, Result};
use std::io::Write;
use std::process::ExitCode;

fn main() -> ExitCode {
    let arguments: Vec<String> = std::env::args().skip(1).collect();
    match run(&arguments) {
        Ok(true) => ExitCode::SUCCESS,
        Ok(false) => ExitCode::from(1),
        Err(message) => {
            eprintln!("{message}");
            ExitCode::from(2)
        }
    }
}

/// Writes the lines, and says whether no name is missed.
fn run(arguments: &[String]) -> std::result::Result<bool, String> {
    let [names, strings] = arguments else {
        return Err("check: give two arguments: check NAMES STR".to_string());
    };
    let (names, strings) = (read_file(names)?, read_file(strings)?);
    let strings = DebugStr::new(&strings, LittleEndian);
    let mut complete = true;
    for header in DebugNames::new(&names, LittleEndian).headers() {
        complete &= header.and_then(|header| check(header, &strings)).map_err(refusal)?;
    }
    Ok(complete)
}

fn read_file(path: &str) -> std::result::Result<Vec<u8>, String> {
    std::fs::read(path).map_err(|_| format!("check: cannot read {path}"))
}

fn refusal(error: Error) -> String {
    format!("refused {} {} {}", error.number(), error.name(), error.value())
}

/// Writes the line of an index, and says whether no name is missed.
fn check(header: NameIndexHeader, strings: &DebugStr) -> Result<bool> {
    let place = header.offset().0;
    let index = header.index()?;
    let lost = index.lost_name(strings)?;
    let words = match lost {
        Some(lost) => lost_words(&lost),
        None if index.has_hash_table() => b"complete".to_vec(),
        None => b"no hash table".to_vec(),
    };
    let line = [format!("index 0x{place:x}: ").as_bytes(), &words, b"\n"].concat();
    std::io::stdout().write_all(&line).expect("the line can be written");
    Ok(lost.is_none())
}

/// A string of a program is any bytes, which are written as they are.
fn lost_words(lost: &LostName) -> Vec<u8> {
    let LostName { missed, name, hash, string } = lost;
    let names = if *missed == 1 { "name" } else { "names" };
    let string = string.map_or_else(|error| refusal(error).into_bytes(), |string| [b"\"", string, b"\""].concat());
    let words = format!("{missed} {names} missed, the first is name {} hash 0x{hash:x} ", name.0);
    [words.as_bytes(), &string].concat()
}
