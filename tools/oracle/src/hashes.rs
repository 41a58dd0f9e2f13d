//! gimli's answers to the calls on the hash table of an index: the names of each bucket, the names that store a hash, and the table check
//! of documents 01 and 02. gimli has no such check: it is worked out here from gimli's answers.

use crate::answers::{Answers, MOST};
use crate::lent::{Bytes, Lent};
use gimli::{NameIndex, NameTableIndex, Reader};

/// No more steps than this are made of a cursor.
const STEPS: usize = 8;

/// After the first end there are this many more: a step after an end goes on past a name of another bucket.
const AFTER_END: usize = 2;

/// The stored hashes of this many names are asked for.
const STORED: usize = 6;

/// The buckets, two numbers past the last, the hashes, and the table check.
pub fn hash_table(lent: &Lent, index: &NameIndex<Bytes>, out: &mut Answers) {
    let stored = stored(lent, index);
    for number in 0..index.bucket_count().min(MOST) + 2 {
        bucket(lent, index, number, out);
    }
    for hash in asked(index, &stored) {
        names_of_hash(lent, index, hash, out);
    }
    check(lent, index, &stored, out);
}

/// The hash that each name stores; none where there is no table. gimli gives the hash of a name only where a bucket's cursor comes to
/// it, so they are read from the bytes. They begin where the starts of the buckets end: gimli's refusal of the bucket after the last
/// has that place.
pub fn stored(lent: &Lent, index: &NameIndex<Bytes>) -> Vec<u32> {
    if !index.has_hash_table() {
        return Vec::new();
    }
    let past = index.find_by_bucket(index.bucket_count()).unwrap_err();
    let mut hashes = lent.names;
    hashes.skip(lent.refusal(past).value as usize).unwrap();
    index.names().map(|_| hashes.read_u32().unwrap()).collect()
}

/// The hashes that are asked for: stored ones, 0 and 1, the number of the last bucket, the hash of an empty name, the largest, and the
/// one after that of the first name.
fn asked(index: &NameIndex<Bytes>, stored: &[u32]) -> Vec<u32> {
    let mut asked: Vec<u32> = stored.iter().copied().take(STORED).collect();
    asked.extend([0, 1]);
    asked.extend(index.bucket_count().checked_sub(1));
    asked.extend([5381, u32::MAX]);
    asked.extend(stored.first().map(|hash| hash.wrapping_add(1)));
    asked
}

/// The cursor of a bucket, and its steps.
fn bucket(lent: &Lent, index: &NameIndex<Bytes>, number: u32, out: &mut Answers) {
    let cursor = index.find_by_bucket(number);
    let first = cursor.as_ref().map(|cursor| first_name(&format!("{cursor:?}"))).map_err(|error| *error);
    out.call(lent, "find_by_bucket", &format!(" {number}"), first);
    match cursor {
        Ok(Some(mut cursor)) => {
            steps(lent, "next_in_bucket", out, || Ok(cursor.next()?.map(|(name, hash)| format!("{} {hash}", name.0))))
        }
        Ok(None) => out.kind("find_by_bucket: none"),
        Err(_) => {}
    }
}

/// The cursor of a hash, and its steps.
fn names_of_hash(lent: &Lent, index: &NameIndex<Bytes>, hash: u32, out: &mut Answers) {
    let cursor = index.find_by_hash(hash);
    let first = cursor.as_ref().map(|cursor| first_name(&format!("{cursor:?}"))).map_err(|error| *error);
    if let Ok("-") = first.as_deref() {
        out.kind("find_by_hash: none");
    }
    out.call(lent, "find_by_hash", &format!(" {hash}"), first);
    if let Ok(mut cursor) = cursor {
        steps(lent, "next_of_hash", out, || Ok(cursor.next()?.map(|name| name.0.to_string())));
    }
}

/// The number of the name before which a cursor stands, or a dash where there is no bucket cursor. gimli does not give it: it is in the
/// text for debugging.
pub fn first_name(text: &str) -> String {
    match text.split_once(" name_table_index: NameTableIndex(") {
        Some((_, number)) => number.split_once(')').unwrap().0.to_string(),
        None => "-".to_string(),
    }
}

/// Steps up to the first that gives no name, and two after it.
fn steps(lent: &Lent, call: &str, out: &mut Answers, mut next: impl FnMut() -> gimli::Result<Option<String>>) {
    for _ in 0..STEPS {
        if !step(lent, call, out, next()) {
            for _ in 0..AFTER_END {
                if step(lent, call, out, next()) {
                    out.kind(&format!("{call}: after end"));
                }
            }
            return;
        }
    }
}

/// The line of a step. It says whether there was a name.
fn step(lent: &Lent, call: &str, out: &mut Answers, answer: gimli::Result<Option<String>>) -> bool {
    let more = matches!(answer, Ok(Some(_)));
    if more {
        out.kind(&format!("{call}: a name"));
    }
    out.call(lent, call, "", answer.map(|name| name.unwrap_or("end".to_string())));
    more
}

/// The line of the table check.
fn check(lent: &Lent, index: &NameIndex<Bytes>, stored: &[u32], out: &mut Answers) {
    let answer = missed(index, stored).map(|missed| match missed.as_deref() {
        None => "none".to_string(),
        Some([]) => "complete".to_string(),
        Some([(name, hash), others @ ..]) => format!("missed {} {} {hash}", 1 + others.len(), name.0),
    });
    if let Some(kind) = answer.as_ref().ok().and_then(|text| text.split(' ').next()) {
        out.kind(&format!("table: {kind}"));
    }
    out.call(lent, "table", "", answer);
}

/// The names that are not in the run of their own bucket, in the order of their numbers, each with the hash that it stores; none where
/// there is no table. A bucket that is refused is the answer, of several the lowest.
pub fn missed(index: &NameIndex<Bytes>, stored: &[u32]) -> gimli::Result<Option<Vec<(NameTableIndex, u32)>>> {
    if !index.has_hash_table() {
        return Ok(None);
    }
    let mut runs = Vec::new();
    for bucket in 0..index.bucket_count() {
        runs.push(run(index, bucket)?);
    }
    let own = |hash: &u32| &runs[(hash % index.bucket_count()) as usize];
    let names = index.names().zip(stored.iter().copied());
    Ok(Some(names.filter(|(name, hash)| !own(hash).contains(name)).collect()))
}

/// The names that a bucket's cursor gives up to its first end.
fn run(index: &NameIndex<Bytes>, bucket: u32) -> gimli::Result<Vec<NameTableIndex>> {
    match index.find_by_bucket(bucket)? {
        Some(cursor) => cursor.map(|step| step.map(|(name, _)| name)).collect(),
        None => Ok(Vec::new()),
    }
}
