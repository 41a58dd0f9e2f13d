//! All calls on a handle where each is refused alike: one that does not fit, or any handle with a section that is too long.

use crate::desk::{Desk, refused};
use crate::ffi::{Answer, BucketStep, HashCursor, HashStep, Index, Str, Table};
use crate::numbers::{NameEntryOffset, NameTableIndex};
use crate::ours::Ours;
use crate::tally::Call;
use crate::twin::refused_entry;

/// A call on a handle with a number behind it.
type Numbered = fn(&Ours, Index, u32) -> Answer;

const CALLS: [(Call, Numbered); 15] = [
    (Call::CompileUnitCount, |ours, index, _| ours.compile_unit_count(index)),
    (Call::LocalTypeUnitCount, |ours, index, _| ours.local_type_unit_count(index)),
    (Call::ForeignTypeUnitCount, |ours, index, _| ours.foreign_type_unit_count(index)),
    (Call::TypeUnitCount, |ours, index, _| ours.type_unit_count(index)),
    (Call::BucketCount, |ours, index, _| ours.bucket_count(index)),
    (Call::NameCount, |ours, index, _| ours.name_count(index)),
    (Call::HasHashTable, |ours, index, _| ours.has_hash_table(index)),
    (Call::CompileUnit, |ours, index, number| ours.compile_unit(index, number)),
    (Call::LocalTypeUnit, |ours, index, number| ours.local_type_unit(index, number)),
    (Call::ForeignTypeUnit, |ours, index, number| ours.foreign_type_unit(index, number)),
    (Call::TypeUnit, |ours, index, number| ours.type_unit(index, number)),
    (Call::DefaultCompileUnit, |ours, index, _| ours.default_compile_unit(index)),
    (Call::NameStringOffset, |ours, index, number| ours.name_string_offset(index, NameTableIndex(number))),
    (Call::FindByBucket, |ours, index, number| ours.find_by_bucket(index, number)),
    (Call::NameEntries, |ours, index, number| ours.name_entries(index, NameTableIndex(number))),
];

/// Every call but `open` is refused with that number and no value, and cursors stay as they were.
pub fn refuse_all(desk: &mut Desk, status: u32) {
    let (index, ours) = (desk.index, desk.ours);
    let number = desk.random.pick(&[0, 1, 2, 7, 0x4000_0000, u32::MAX]);
    let words = || format!("number {number}");
    for (call, ask) in CALLS {
        desk.same(call, words, ask(&ours, index, number), refused(status));
    }
    let name = NameTableIndex(number);
    desk.same(Call::NameString, words, ours.name_string(index, name), Str { status, ..Str::default() });
    let step = BucketStep { status, next: name, ..BucketStep::default() };
    desk.same(Call::NextInBucket, words, ours.next_in_bucket(index, number, name), step);
    let lookup = HashStep { status, ..HashStep::default() };
    desk.same(Call::FindByHash, words, ours.find_by_hash(index, number), lookup);
    desk.same(Call::CheckTable, words, ours.check_table(index), Table { status, ..Table::default() });
    let cursor = HashCursor { hash: number, has_bucket: desk.random.pick(&[1, 1, 0, 2]), bucket: 3, name };
    let step = HashStep { status, next: cursor, ..HashStep::default() };
    desk.same(Call::NextByHash, || format!("{cursor:?}"), ours.next_by_hash(index, cursor), step);
    let at = desk.random.pick(&[index.begin, index.end, number as usize, usize::MAX]);
    let words = || format!("at {at}");
    desk.same(Call::NextEntry, words, ours.next_entry(index, at), refused_entry(refused(status), at));
    desk.same(Call::NameEntry, words, ours.name_entry(index, NameEntryOffset(at)), refused_entry(refused(status), 0));
}
