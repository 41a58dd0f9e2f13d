//! Sections that compilers, linkers, llvm-bolt and gdb wrote: those of the folder tests/real. Its sections.txt has a line for each, the name and
//! the byte order; the bytes are in NAME.names and NAME.str.

use std::fs;
use std::path::PathBuf;

use crate::bytes::Order;
use crate::case::Case;

/// All of them.
pub fn cases() -> Vec<Case> {
    lines().iter().map(|(name, order)| of(name, *order)).collect()
}

/// The one of that name.
pub fn case(name: &str) -> Case {
    let lines = lines();
    let (name, order) = lines.iter().find(|line| line.0 == name).unwrap_or_else(|| panic!("sections.txt: {name} is missing"));
    of(name, *order)
}

/// The names, with the byte order of each.
fn lines() -> Vec<(String, Order)> {
    let list = String::from_utf8(read("sections.txt")).unwrap();
    let parts = |line: &str| {
        let (name, order) = line.split_once(' ').unwrap();
        let order = match order {
            "little" => Order::Little,
            "big" => Order::Big,
            other => panic!("sections.txt: {other} is no byte order"),
        };
        (name.to_string(), order)
    };
    list.lines().map(parts).collect()
}

fn of(name: &str, order: Order) -> Case {
    Case { order, names: read(&format!("{name}.names")), strings: read(&format!("{name}.str")) }
}

fn read(file: &str) -> Vec<u8> {
    let folder = PathBuf::from(concat!(env!("CARGO_MANIFEST_DIR"), "/../../tests/real"));
    fs::read(folder.join(file)).unwrap_or_else(|e| panic!("{file}: {e}"))
}
