//! where NAMES STR FUNCTION: says where a function is described. It is examples/where.c of the repository in Rust.
//!
//! NAMES and STR are files with the sections .debug_names and .debug_str of a little-endian program, as objcopy writes them. For each
//! entry of the name FUNCTION one line is written:
//!
//!     main: index 0x0 entry 0x6 tag 0x2e compile unit 0x0 DIE 0x2a
//!
//! They are the place of the index in .debug_names, the entry's offset in the entry pool, the tag, the unit, and the offset of the DIE
//! from the start of that unit; all numbers are hexadecimal. The unit may also be a `local type unit`, with its offset in .debug_info, a
//! `foreign type unit`, with its signature, or `no unit`, and an entry that has no DIE offset ends with `no DIE`. Where there is no entry
//! the only line is "main: not found". Both end with exit status 0. The other ends, each with a message on stderr:
//!
//!     1   the section query and the lookup by hand give different entries
//!     2   a call is refused ("refused 1 UnexpectedEof 4": its number, its name, and its value in decimal), or there are not three
//!         arguments, or a file cannot be read

use debug_names::{
    DebugInfoOffset, DebugNames, DebugStr, DebugTypeSignature, Error, LittleEndian, NameEntry, NameIndex, NameTableIndex, NameTypeUnit,
    Record, RecordUnit, Result,
};
use std::process::ExitCode;

/// What is searched, and for what.
struct Search<'a> {
    names: DebugNames<'a>,
    strings: DebugStr<'a>,
    name: &'a str,
    hash: u32,
}

/// An index that was opened, and the place of its header.
struct Opened<'a> {
    place: usize,
    index: NameIndex<'a>,
}

/// How the program ends where something is wrong.
enum Stop {
    Different(&'static str),
    Refused(Error),
    Usage(String),
}

impl From<Error> for Stop {
    fn from(error: Error) -> Stop {
        Stop::Refused(error)
    }
}

fn main() -> ExitCode {
    let arguments: Vec<String> = std::env::args().skip(1).collect();
    let Err(stop) = run(&arguments) else {
        return ExitCode::SUCCESS;
    };
    match stop {
        Stop::Different(what) => {
            eprintln!("where: {what}: {}", arguments[2]);
            return ExitCode::from(1);
        }
        Stop::Refused(error) => eprintln!("refused {} {} {}", error.number(), error.name(), error.value()),
        Stop::Usage(what) => eprintln!("where: {what}"),
    }
    ExitCode::from(2)
}

fn run(arguments: &[String]) -> std::result::Result<(), Stop> {
    let [names, strings, name] = arguments else {
        return Err(Stop::Usage("give three arguments: where NAMES STR FUNCTION".to_string()));
    };
    let (names, strings) = (read_file(names)?, read_file(strings)?);
    let search = Search {
        names: DebugNames::new(&names, LittleEndian),
        strings: DebugStr::new(&strings, LittleEndian),
        name,
        hash: hash_of(name.as_bytes()),
    };
    let indexes = open_all(&search)?;
    let records = find_by_query(&search)?;
    print_records(name, &records);
    compare(&find_by_hand(&search, &indexes)?, &records)
}

fn read_file(path: &str) -> std::result::Result<Vec<u8>, Stop> {
    std::fs::read(path).map_err(|_| Stop::Usage(format!("cannot read {path}")))
}

/// The hash of a name (DWARF 5, 6.1.1.4.5 and 7.33), which the library leaves to its callers. The standard folds the case of all
/// characters; folding A to Z, as here, is enough for names in ASCII.
fn hash_of(name: &[u8]) -> u32 {
    let step = |hash: u32, byte: &u8| hash.wrapping_mul(33).wrapping_add(byte.to_ascii_lowercase().into());
    name.iter().fold(5381, step)
}

// ---- (a) The indexes of the section

/// Walks over the headers, and opens the index of each.
fn open_all<'a>(search: &Search<'a>) -> Result<Vec<Opened<'a>>> {
    let open = |header: debug_names::NameIndexHeader<'a>| Ok(Opened { place: header.offset().0, index: header.index()? });
    search.names.headers().map(|header| header.and_then(open)).collect()
}

// ---- (b) The section query

/// All records of the name. The first query, with room for none, tells how many there are.
fn find_by_query(search: &Search) -> Result<Vec<Record>> {
    let query = |records: &mut [Record]| search.names.query(&search.strings, search.hash, search.name.as_bytes(), records);
    let mut records = vec![Record::default(); query(&mut [])? as usize];
    query(&mut records)?;
    Ok(records)
}

fn print_records(name: &str, records: &[Record]) {
    if records.is_empty() {
        println!("{name}: not found");
    }
    for record in records {
        let place = format!("index 0x{:x} entry 0x{:x} tag 0x{:x}", record.index().0, record.entry().0, record.tag().0);
        println!("{name}: {place} {} {}", unit_words(record), die_words(record));
    }
}

fn unit_words(record: &Record) -> String {
    match record.unit() {
        Some(RecordUnit::Compile(DebugInfoOffset(offset))) => format!("compile unit 0x{offset:x}"),
        Some(RecordUnit::LocalType(DebugInfoOffset(offset))) => format!("local type unit 0x{offset:x}"),
        Some(RecordUnit::ForeignType(DebugTypeSignature(signature))) => format!("foreign type unit 0x{signature:x}"),
        None => "no unit".to_string(),
    }
}

fn die_words(record: &Record) -> String {
    record.die_offset().map_or("no DIE".to_string(), |offset| format!("DIE 0x{:x}", offset.0))
}

// ---- (c) The same by hand, call by call

/// What the lookup by hand finds of an entry: its place, and its unit and DIE as the query has them.
#[derive(PartialEq)]
struct Found {
    place: usize,
    name: NameTableIndex,
    entry: NameEntry,
    unit: Option<RecordUnit>,
}

/// Looks the name up in each index: by its hash, or among all names where there is no hash table.
fn find_by_hand(search: &Search, indexes: &[Opened]) -> Result<Vec<Found>> {
    let mut found = Vec::new();
    for opened in indexes {
        let index = &opened.index;
        let candidates: Vec<NameTableIndex> = match index.has_hash_table() {
            true => index.find_by_hash(search.hash)?.collect::<Result<_>>()?,
            false => index.names().collect(),
        };
        for name in candidates {
            if index.name_string(name, &search.strings)? == search.name.as_bytes() {
                find_entries(opened, name, &mut found)?;
            }
        }
    }
    Ok(found)
}

/// The entries of a name.
fn find_entries(opened: &Opened, name: NameTableIndex, found: &mut Vec<Found>) -> Result<()> {
    for entry in opened.index.name_entries(name)? {
        let entry = entry?;
        let unit = unit_of(&opened.index, &entry)?;
        entry.die_offset()?;
        found.push(Found { place: opened.place, name, entry, unit });
    }
    Ok(())
}

/// The unit of an entry: the type unit that it names, else the compile unit that it names, else the only compile unit of its index, else
/// none. What comes later in this order is not asked for, so that its refusal does not matter.
fn unit_of(index: &NameIndex, entry: &NameEntry) -> Result<Option<RecordUnit>> {
    match entry.type_unit(index)? {
        Some(NameTypeUnit::Local(unit)) => return Ok(Some(RecordUnit::LocalType(unit))),
        Some(NameTypeUnit::Foreign(signature)) => return Ok(Some(RecordUnit::ForeignType(signature))),
        None => {}
    }
    if let Some(unit) = entry.compile_unit(index)? {
        return Ok(Some(RecordUnit::Compile(unit)));
    }
    Ok(index.default_compile_unit()?.map(RecordUnit::Compile))
}

/// Compares the entries that were found by hand with the query's records.
fn compare(found: &[Found], records: &[Record]) -> std::result::Result<(), Stop> {
    for (number, found) in found.iter().enumerate() {
        match records.get(number) {
            None => return Err(Stop::Different("the lookup by hand finds an entry that the query does not have")),
            Some(record) if !same(found, record) => {
                return Err(Stop::Different("the lookup by hand finds another entry than the query"));
            }
            Some(_) => {}
        }
    }
    if found.len() < records.len() {
        return Err(Stop::Different("the query has an entry that the lookup by hand does not find"));
    }
    Ok(())
}

fn same(found: &Found, record: &Record) -> bool {
    let Found { place, name, entry, unit } = found;
    let by_hand = (*place, *name, entry.offset, entry.tag, *unit, entry.die_offset());
    by_hand == (record.index().0, record.name(), record.entry(), record.tag(), record.unit(), Ok(record.die_offset()))
}
