//! The counts of an index, and its units.

use crate::desk::Desk;
use crate::ffi::Answer;
use crate::tally::Call;
use crate::twin::{COMPILE, FOREIGN, LOCAL, Twin, or_none, type_unit};

pub fn counts(desk: &mut Desk, twin: &Twin) {
    let count = |value: u32| Answer { status: 0, kind: 1, value: value.into() };
    let (index, ours) = (&twin.index, desk.ours);
    for (call, ours, theirs) in [
        (Call::CompileUnitCount, ours.compile_unit_count(desk.index), index.compile_unit_count()),
        (Call::LocalTypeUnitCount, ours.local_type_unit_count(desk.index), index.local_type_unit_count()),
        (Call::ForeignTypeUnitCount, ours.foreign_type_unit_count(desk.index), index.foreign_type_unit_count()),
        (Call::TypeUnitCount, ours.type_unit_count(desk.index), index.type_unit_count()),
        (Call::BucketCount, ours.bucket_count(desk.index), index.bucket_count()),
        (Call::NameCount, ours.name_count(desk.index), index.name_count()),
        (Call::HasHashTable, ours.has_hash_table(desk.index), index.has_hash_table().into()),
    ] {
        desk.same(call, String::new, ours, count(theirs));
    }
}

/// Each list at its numbers, past its end, and at large numbers.
pub fn units(desk: &mut Desk, twin: &Twin) {
    let (index, view) = (&twin.index, twin.view);
    let words = |number: u32| move || format!("number {number}");
    for number in desk.numbers(index.compile_unit_count()) {
        let theirs = view.answer(index.compile_unit(number), |unit| (COMPILE, unit.0 as u64));
        desk.same(Call::CompileUnit, words(number), desk.ours.compile_unit(desk.index, number), theirs);
    }
    for number in desk.numbers(index.local_type_unit_count()) {
        let theirs = view.answer(index.local_type_unit(number), |unit| (LOCAL, unit.0 as u64));
        desk.same(Call::LocalTypeUnit, words(number), desk.ours.local_type_unit(desk.index, number), theirs);
    }
    for number in desk.numbers(index.foreign_type_unit_count()) {
        let theirs = view.answer(index.foreign_type_unit(number), |unit| (FOREIGN, unit.0));
        desk.same(Call::ForeignTypeUnit, words(number), desk.ours.foreign_type_unit(desk.index, number), theirs);
    }
    for number in desk.numbers(index.type_unit_count()) {
        let theirs = view.answer(index.type_unit(number), type_unit);
        desk.same(Call::TypeUnit, words(number), desk.ours.type_unit(desk.index, number), theirs);
    }
    let theirs = view.answer(index.default_compile_unit(), |unit| or_none(unit.map(|unit| (COMPILE, unit.0 as u64))));
    desk.same(Call::DefaultCompileUnit, String::new, desk.ours.default_compile_unit(desk.index), theirs);
}
