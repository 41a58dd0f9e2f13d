//! The hash table of an index: buckets, hashes and their steps, and the table check.

use crate::desk::Desk;
use crate::ffi::{Answer, BucketStep, HashCursor, HashStep, Table};
use crate::numbers;
use crate::tally::Call;
use crate::twin::Twin;
use gimli::hashes::{first_name, missed, stored};
use gimli::lent::Bytes;
use gimli::{NameBucketIter, NameHashIter, NameTableIndex};
use std::fmt::Debug;

/// No more steps than this are made of a cursor.
const STEPS: usize = 10;

/// After the first end there are this many more: a step after an end goes on past a name of another bucket.
const AFTER_END: usize = 3;

/// The stored hashes of this many names are asked for.
const STORED: usize = 5;

/// So many cursors are made from any numbers.
const ANY: usize = 3;

pub fn table(desk: &mut Desk, twin: &Twin) {
    let stored = stored(&twin.view.lent, &twin.index);
    for bucket in desk.numbers(twin.index.bucket_count()) {
        by_bucket(desk, twin, bucket);
    }
    for hash in asked(desk, twin, &stored) {
        by_hash(desk, twin, hash);
    }
    for _ in 0..ANY {
        any_bucket_cursor(desk, twin, &stored);
        any_hash_cursor(desk, twin, &stored);
    }
    check(desk, twin, &stored);
}

/// The table check.
fn check(desk: &mut Desk, twin: &Twin, stored: &[u32]) {
    let answer = missed(&twin.index, stored);
    let expected = match answer.as_ref().map(Option::as_deref) {
        Ok(None) => Table::default(),
        Ok(Some([])) => Table { kind: 1, ..Table::default() },
        Ok(Some(missed @ [(name, hash), ..])) => {
            Table { status: 0, kind: 2, value: missed.len() as u64, name: numbers::NameTableIndex(name.0), hash: *hash }
        }
        Err(error) => {
            let Answer { status, value, .. } = twin.view.refusal(*error);
            Table { status, value, ..Table::default() }
        }
    };
    desk.same(Call::CheckTable, String::new, desk.ours.check_table(desk.index), expected);
    if answer.is_ok_and(|missed| crosses(twin, &missed.unwrap_or_default())) {
        desk.tally.other("a lost name not of the lowest bucket");
    }
}

/// Whether the first of the missed names is in a higher bucket than another of them.
fn crosses(twin: &Twin, missed: &[(NameTableIndex, u32)]) -> bool {
    let buckets: Vec<u32> = missed.iter().map(|(_, hash)| hash % twin.index.bucket_count()).collect();
    buckets.first() > buckets.iter().min()
}

/// Stored hashes, near misses of them, small ones, the largest, and any.
fn asked(desk: &mut Desk, twin: &Twin, stored: &[u32]) -> Vec<u32> {
    let random = &mut desk.random;
    let buckets = twin.index.bucket_count();
    let mut asked: Vec<u32> = stored.iter().copied().take(STORED).collect();
    if !stored.is_empty() {
        let near = random.pick(stored);
        asked.extend([near.wrapping_add(1), near.wrapping_add(buckets), near ^ 0x8000_0000, random.pick(stored)]);
    }
    asked.extend([random.below(8) as u32, random.next() as u32, random.pick(&[0, 1, 5381, buckets.wrapping_sub(1), u32::MAX])]);
    asked
}

/// The number of the name before which a cursor of gimli's stands. It is not public: it is in gimli's text for debugging.
fn name_of(cursor: &impl Debug) -> Option<numbers::NameTableIndex> {
    first_name(&format!("{cursor:?}")).parse().ok().map(numbers::NameTableIndex)
}

/// The lookup of a bucket, and its steps.
fn by_bucket(desk: &mut Desk, twin: &Twin, bucket: u32) {
    let answer = twin.index.find_by_bucket(bucket);
    let cursor = |cursor: &Option<NameBucketIter<Bytes>>| cursor.as_ref().and_then(name_of).map_or((0, 0), |name| (1, name.0.into()));
    let expected = twin.view.answer(answer.as_ref().map_err(|error| *error), cursor);
    desk.same(Call::FindByBucket, || format!("bucket {bucket}"), desk.ours.find_by_bucket(desk.index, bucket), expected);
    if let Ok(Some(cursor)) = answer {
        bucket_steps(desk, twin, bucket, expected.value as u32, cursor);
    }
}

/// Each step from the cursor that our last one handed back.
fn bucket_steps(desk: &mut Desk, twin: &Twin, bucket: u32, first: u32, mut cursor: NameBucketIter<Bytes>) {
    let mut name = numbers::NameTableIndex(first);
    let mut ends = 0;
    for _ in 0..STEPS {
        let answer = cursor.next();
        let next = name_of(&cursor).unwrap_or_default();
        let expected = match answer {
            Ok(Some((number, hash))) => BucketStep { status: 0, kind: 1, value: number.0.into(), hash, next },
            Ok(None) => BucketStep { next, ..BucketStep::default() },
            Err(error) => {
                let Answer { status, value, .. } = twin.view.refusal(error);
                BucketStep { status, value, next, ..BucketStep::default() }
            }
        };
        let ours = desk.ours.next_in_bucket(desk.index, bucket, name);
        desk.same(Call::NextInBucket, || format!("bucket {bucket} name {}", name.0), ours, expected);
        name = ours.next;
        if !go_on(desk, expected.kind == 1, &mut ends) {
            return;
        }
    }
}

/// Counts the ends. It says whether there is another step.
fn go_on(desk: &mut Desk, named: bool, ends: &mut usize) -> bool {
    if named && *ends > 0 {
        desk.tally.other("a step after an end gives a name");
    }
    *ends += usize::from(!named);
    *ends <= AFTER_END
}

/// The lookup of a hash, and its steps.
fn by_hash(desk: &mut Desk, twin: &Twin, hash: u32) {
    let answer = twin.index.find_by_hash(hash);
    let expected = match &answer {
        Ok(cursor) => HashStep { kind: 1, next: hash_cursor(twin, hash, cursor), ..HashStep::default() },
        Err(error) => {
            let Answer { status, value, .. } = twin.view.refusal(*error);
            HashStep { status, value, ..HashStep::default() }
        }
    };
    let ours = desk.ours.find_by_hash(desk.index, hash);
    desk.same(Call::FindByHash, || format!("hash {hash}"), ours, expected);
    if let Ok(cursor) = answer {
        hash_steps(desk, twin, hash, ours.next, cursor);
    }
}

/// Where a hash cursor of gimli's stands.
fn hash_cursor(twin: &Twin, hash: u32, cursor: &NameHashIter<Bytes>) -> HashCursor {
    match name_of(cursor) {
        Some(name) => HashCursor { hash, has_bucket: 1, bucket: hash % twin.index.bucket_count(), name },
        None => HashCursor { hash, ..HashCursor::default() },
    }
}

/// Each step from the cursor that our last one handed back.
fn hash_steps(desk: &mut Desk, twin: &Twin, hash: u32, first: HashCursor, mut cursor: NameHashIter<Bytes>) {
    let mut at = first;
    let mut ends = 0;
    for _ in 0..STEPS {
        let answer = cursor.next();
        let next = hash_cursor(twin, hash, &cursor);
        let expected = match answer {
            Ok(Some(name)) => HashStep { status: 0, kind: 1, value: name.0.into(), next },
            Ok(None) => HashStep { next, ..HashStep::default() },
            Err(error) => {
                let Answer { status, value, .. } = twin.view.refusal(error);
                HashStep { status, value, next: at, ..HashStep::default() }
            }
        };
        let ours = desk.ours.next_by_hash(desk.index, at);
        desk.same(Call::NextByHash, || format!("{at:?}"), ours, expected);
        at = ours.next;
        if !go_on(desk, expected.kind == 1, &mut ends) {
            return;
        }
    }
}

/// A step of a bucket cursor, by document 01's words: gimli makes no cursor at any name. The last is the name after it.
fn bucket_step(twin: &Twin, stored: &[u32], bucket: u32, name: numbers::NameTableIndex) -> (Option<u32>, numbers::NameTableIndex) {
    let next = || numbers::NameTableIndex(name.0 + 1);
    match stored.get(name.0 as usize) {
        None => (None, name),
        Some(hash) if hash % twin.index.bucket_count() == bucket => (Some(*hash), next()),
        Some(_) => (None, next()),
    }
}

/// A bucket and a name, each most often one that there is.
fn any_place(desk: &mut Desk, twin: &Twin) -> (u32, numbers::NameTableIndex) {
    let random = &mut desk.random;
    let mut number = |count: u32| match random.below(6) {
        0 => count,
        1 => random.pick(&[count.wrapping_add(1), count.wrapping_sub(1), u32::MAX, 0x4000_0000]),
        _ => random.below(count.max(1) as usize) as u32,
    };
    (number(twin.index.bucket_count()), numbers::NameTableIndex(number(twin.index.name_count())))
}

/// A step of a bucket cursor of any numbers.
fn any_bucket_cursor(desk: &mut Desk, twin: &Twin, stored: &[u32]) {
    let (bucket, name) = any_place(desk, twin);
    let expected = if bucket >= twin.index.bucket_count() {
        BucketStep { status: 14, next: name, ..BucketStep::default() }
    } else {
        match bucket_step(twin, stored, bucket, name) {
            (Some(hash), next) => BucketStep { status: 0, kind: 1, value: name.0.into(), hash, next },
            (None, next) => BucketStep { next, ..BucketStep::default() },
        }
    };
    let ours = desk.ours.next_in_bucket(desk.index, bucket, name);
    desk.same(Call::NextInBucket, || format!("bucket {bucket} name {}", name.0), ours, expected);
}

/// A step of a hash cursor of any numbers.
fn any_hash_cursor(desk: &mut Desk, twin: &Twin, stored: &[u32]) {
    let (bucket, name) = any_place(desk, twin);
    let hash = match stored.is_empty() || desk.random.once_in(3) {
        true => desk.random.below(8) as u32,
        false => desk.random.pick(stored),
    };
    let has_bucket = desk.random.pick(&[1, 1, 1, 1, 1, 1, 0, 2, 256, u32::MAX]);
    let cursor = HashCursor { hash, has_bucket, bucket, name };
    let ours = desk.ours.next_by_hash(desk.index, cursor);
    desk.same(Call::NextByHash, || format!("{cursor:?}"), ours, hash_step(twin, stored, cursor));
}

/// The cursor as it comes back from a step that is not refused: a bucket cursor or none.
fn normal(cursor: HashCursor) -> HashCursor {
    match cursor.has_bucket {
        0 => HashCursor { hash: cursor.hash, ..HashCursor::default() },
        _ => HashCursor { has_bucket: 1, ..cursor },
    }
}

/// A step of a hash cursor, by document 01's words. A refused one hands back the caller's cursor, number by number.
fn hash_step(twin: &Twin, stored: &[u32], from: HashCursor) -> HashStep {
    let mut cursor = normal(from);
    if cursor.has_bucket == 0 {
        return HashStep { next: cursor, ..HashStep::default() };
    }
    if cursor.bucket >= twin.index.bucket_count() {
        return HashStep { status: 14, next: from, ..HashStep::default() };
    }
    loop {
        let name = cursor.name;
        let (found, next) = bucket_step(twin, stored, cursor.bucket, name);
        cursor.name = next;
        match found {
            None => return HashStep { next: cursor, ..HashStep::default() },
            Some(hash) if hash == cursor.hash => {
                return HashStep { status: 0, kind: 1, value: name.0.into(), next: cursor };
            }
            Some(_) => {}
        }
    }
}
