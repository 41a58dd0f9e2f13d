//! A section with what is asked of it: names and hashes that it has, and some that it does not have.

use crate::over_gimli::{DebugNames, DebugStr, Index, LittleEndian};
use crate::random::Random;
use crate::section::{Sections, hash_of, random_name};
use std::collections::HashSet;

/// A name that a query asks for.
pub struct Asked {
    pub name: Vec<u8>,
    pub hash: u32,
}

/// An input of the work.
pub struct Input {
    /// `a`, `b` or the name of a file.
    pub key: String,
    pub words: String,
    pub sections: Sections,
    pub counts: Counts,
    pub present: Vec<Asked>,
    pub absent: Vec<Asked>,
    /// Hashes, each with the number of the index in which it is looked up.
    pub present_hashes: Vec<(usize, u32)>,
    pub absent_hashes: Vec<(usize, u32)>,
}

/// How many there are of each.
pub struct Counts {
    pub indexes: u64,
    pub names: u64,
    pub entries: u64,
}

/// So many lookups by hash are made in a run, where there are as many names. They are many, so that a processor cannot learn their
/// branches by heart.
const LOOKUPS: usize = 65536;
/// So many indexes are visited by the queries of a run, where there are as many names.
const VISITS: usize = 32768;
/// No more queries than this are made in a run.
const QUERIES: usize = 16384;

/// A name of a section, as gimli lists it.
struct Listed {
    index: usize,
    name: Vec<u8>,
    hash: u32,
}

impl Input {
    /// The names that are asked for are taken from the section in a random order that is always the same.
    pub fn new(key: &str, words: &str, sections: Sections) -> gimli::Result<Input> {
        let (mut listed, counts) = list(&sections)?;
        let mut random = Random(7);
        let absent = absent(&listed, &mut random);
        random.shuffle(&mut listed);
        let indexes = (counts.indexes as usize).max(1);
        let queries = (VISITS / indexes).clamp(1, QUERIES);
        let present_hashes = listed.iter().take(LOOKUPS).map(|name| (name.index, name.hash)).collect();
        let absent_hashes = absent.iter().enumerate().map(|(n, asked)| (n % indexes, asked.hash)).collect();
        let asked = listed.into_iter().map(|Listed { name, hash, .. }| Asked { name, hash });
        Ok(Input {
            key: key.to_string(),
            words: words.to_string(),
            sections,
            counts,
            present: asked.take(queries).collect(),
            absent: absent.into_iter().take(queries).collect(),
            present_hashes,
            absent_hashes,
        })
    }
}

/// Names that the section does not have.
fn absent(listed: &[Listed], random: &mut Random) -> Vec<Asked> {
    let present: HashSet<&[u8]> = listed.iter().map(|listed| &listed.name[..]).collect();
    let names = std::iter::repeat_with(|| random_name(random)).filter(|name| !present.contains(&name[..]));
    names.take(LOOKUPS.min(listed.len())).map(|name| Asked { hash: hash_of(&name), name }).collect()
}

/// The names of all indexes, bucket by bucket.
fn list(sections: &Sections) -> gimli::Result<(Vec<Listed>, Counts)> {
    let strings = DebugStr::new(&sections.strings, LittleEndian);
    let mut listed = Vec::new();
    let mut counts = Counts { indexes: 0, names: 0, entries: 0 };
    let section = DebugNames::new(&sections.names, LittleEndian);
    let mut headers = section.headers();
    while let Some(header) = headers.next()? {
        let index = header.index()?;
        for bucket in 0..index.bucket_count() {
            for step in index.find_by_bucket(bucket)?.into_iter().flatten() {
                let (name, hash) = step?;
                let string = index.name_string(name, &strings)?;
                listed.push(Listed { index: counts.indexes as usize, name: string.to_vec(), hash });
            }
        }
        counts.indexes += 1;
        counts.names += u64::from(index.name_count());
        counts.entries += entries(&index)?;
    }
    Ok((listed, counts))
}

fn entries(index: &Index) -> gimli::Result<u64> {
    let mut count = 0;
    for name in index.names() {
        for entry in index.name_entries(name)? {
            entry?;
            count += 1;
        }
    }
    Ok(count)
}
