//! The work that is timed, written once in gimli's names. It is compiled twice, over gimli and over this reader, so that both sides
//! do the same. Each function returns a sum of what it was answered, so that the answers can be compared and none is left out. What is
//! timed is not inlined into the driver, so that its code does not depend on what stands beside it.

use super::{Entry, Error, Index, NameTableIndex, NameTypeUnit, Names, Strings};
use crate::input::Asked;
use debug_names::{DebugNamesOffset, NameEntryOffset, Record, UnitOffset};
use std::hint::black_box;

type Result<T> = std::result::Result<T, Error>;

/// An index that is kept open, with the place of its header.
pub struct Kept<'a> {
    place: usize,
    index: Index<'a>,
}

/// Opens all indexes and keeps them.
pub fn keep<'a>(names: &Names<'a>) -> Result<Vec<Kept<'a>>> {
    let mut kept = Vec::new();
    let mut headers = names.headers();
    while let Some(header) = headers.next()? {
        let place = header.offset().0;
        kept.push(Kept { place, index: header.index()? });
    }
    Ok(kept)
}

/// Adds a number to a sum in which the order counts.
#[inline]
fn add(sum: u64, number: u64) -> u64 {
    sum.rotate_left(7).wrapping_add(number)
}

/// Walks and opens all indexes.
#[inline(never)]
pub fn open(names: &Names) -> Result<u64> {
    let mut sum = 0;
    let mut headers = names.headers();
    while let Some(header) = headers.next()? {
        let index = header.index()?;
        sum = add(sum, index.name_count().into());
        black_box(&index);
    }
    Ok(sum)
}

/// The section query, written over the calls of an index: opens each index every time.
#[inline(never)]
pub fn query_opening(names: &Names, strings: &Strings, asked: &Asked, records: &mut [Record]) -> Result<u64> {
    let mut total = 0;
    let mut headers = names.headers();
    while let Some(header) = headers.next()? {
        let place = header.offset().0;
        query_index(&header.index()?, place, strings, asked, records, &mut total)?;
    }
    Ok(total)
}

/// The section query over indexes that are kept open.
#[inline(never)]
pub fn query_kept(kept: &[Kept], strings: &Strings, asked: &Asked, records: &mut [Record]) -> Result<u64> {
    let mut total = 0;
    for Kept { place, index } in kept {
        query_index(index, *place, strings, asked, records, &mut total)?;
    }
    Ok(total)
}

/// The entries of a name in one index: the names of its hash, their strings, and the entries of those that are equal.
#[inline]
fn query_index<'a>(
    index: &Index<'a>,
    place: usize,
    strings: &Strings<'a>,
    asked: &Asked,
    records: &mut [Record],
    total: &mut u64,
) -> Result<()> {
    let mut names = index.find_by_hash(asked.hash)?;
    while let Some(name) = names.next()? {
        if index.name_string(name, strings)?[..] != asked.name[..] {
            continue;
        }
        let mut entries = index.name_entries(name)?;
        while let Some(entry) = entries.next()? {
            let record = record(index, place, name, &entry)?;
            if let Some(room) = records.get_mut(*total as usize) {
                *room = record;
            }
            *total += 1;
        }
    }
    Ok(())
}

/// The record of an entry.
#[inline]
fn record<'a>(index: &Index<'a>, place: usize, name: NameTableIndex, entry: &Entry<'a>) -> Result<Record> {
    let (unit_kind, unit_value) = unit(index, entry)?;
    let die = entry.die_offset()?;
    Ok(Record {
        unit_value,
        die_offset: UnitOffset(die.map_or(0, |die| die.0)),
        index_offset: DebugNamesOffset(place as u32),
        entry_offset: NameEntryOffset(entry.offset.0 as u32),
        name: debug_names::NameTableIndex(name.0),
        tag: entry.tag.0,
        unit_kind,
        has_die_offset: die.is_some().into(),
    })
}

/// Kind and value of an entry's unit: of its attribute type_unit, else of compile_unit, else the default compile unit.
#[inline]
fn unit<'a>(index: &Index<'a>, entry: &Entry<'a>) -> Result<(u8, u64)> {
    match entry.type_unit(index)? {
        Some(NameTypeUnit::Local(unit)) => return Ok((2, unit.0 as u64)),
        Some(NameTypeUnit::Foreign(signature)) => return Ok((3, signature.0)),
        None => {}
    }
    if let Some(unit) = entry.compile_unit(index)? {
        return Ok((1, unit.0 as u64));
    }
    let default = index.default_compile_unit()?;
    Ok(default.map_or((0, 0), |unit| (1, unit.0 as u64)))
}

/// Lookups by hash, each in one index, with their steps up to the end.
#[inline(never)]
pub fn find_by_hash(kept: &[Kept], lookups: &[(usize, u32)]) -> Result<u64> {
    let mut sum = 0;
    for (number, hash) in lookups {
        let mut names = kept[*number].index.find_by_hash(*hash)?;
        while let Some(name) = names.next()? {
            sum = add(sum, name.0.into());
        }
        sum = add(sum, 1);
    }
    Ok(sum)
}

/// All entries of all names, each with its five facts.
#[inline(never)]
pub fn entries(kept: &[Kept]) -> Result<u64> {
    let mut sum = 0;
    for Kept { index, .. } in kept {
        for name in index.names() {
            let mut entries = index.name_entries(name)?;
            while let Some(entry) = entries.next()? {
                sum = facts(sum, index, &entry)?;
            }
        }
    }
    Ok(sum)
}

/// The five facts of an entry, with its offset and its tag.
#[inline]
fn facts<'a>(sum: u64, index: &Index<'a>, entry: &Entry<'a>) -> Result<u64> {
    let mut sum = add(sum, entry.offset.0 as u64 ^ u64::from(entry.tag.0) << 32);
    sum = add(sum, entry.compile_unit(index)?.map_or(1, |unit| unit.0 as u64));
    sum = add(
        sum,
        entry.type_unit(index)?.map_or(2, |unit| match unit {
            NameTypeUnit::Local(unit) => unit.0 as u64,
            NameTypeUnit::Foreign(signature) => signature.0,
        }),
    );
    sum = add(sum, entry.die_offset()?.map_or(3, |die| die.0 as u64));
    sum = add(sum, entry.parent()?.map_or(4, |parent| parent.map_or(5, |entry| entry.0 as u64)));
    Ok(add(sum, entry.type_hash()?.unwrap_or(6)))
}

/// The table check of an index: how many names no lookup lists. The run of a bucket has only names of that bucket, and each of them
/// once, so that the names that are listed are as many as the steps that give one.
#[inline(never)]
pub fn missed(index: &Index) -> Result<u64> {
    let mut listed = 0;
    for bucket in 0..index.bucket_count() {
        if let Some(mut names) = index.find_by_bucket(bucket)? {
            while names.next()?.is_some() {
                listed += 1;
            }
        }
    }
    Ok(u64::from(index.name_count()) - listed)
}

/// The missed names of all indexes, by a check of one index.
pub fn check<'a>(kept: &[Kept<'a>], missed: impl Fn(&Index<'a>) -> Result<u64>) -> Result<u64> {
    kept.iter().try_fold(0, |sum, kept| Ok(add(sum, missed(&kept.index)?)))
}

/// Lists all names, bucket by bucket: the string of each, its stored hash, and the number of its entries.
#[inline(never)]
pub fn list(kept: &[Kept], strings: &Strings) -> Result<u64> {
    let mut sum = 0;
    for Kept { index, .. } in kept {
        for bucket in 0..index.bucket_count() {
            let Some(mut names) = index.find_by_bucket(bucket)? else {
                continue;
            };
            while let Some((name, hash)) = names.next()? {
                let string = index.name_string(name, strings)?;
                let last = string.last().copied().unwrap_or(0);
                sum = add(sum, u64::from(hash) ^ (string.len() as u64) << 40 ^ u64::from(last) << 56);
                sum = add(sum, count_entries(index, name)?);
            }
        }
    }
    Ok(sum)
}

#[inline]
fn count_entries(index: &Index, name: NameTableIndex) -> Result<u64> {
    let mut count = 0;
    let mut entries = index.name_entries(name)?;
    while entries.next()?.is_some() {
        count += 1;
    }
    Ok(count)
}
