//! The calls that are timed, each over this reader and over gimli.

use crate::input::Input;
use debug_names::Record;
use std::cell::RefCell;

/// One side of a call. It gives a number that depends on the answers, so that both sides can be compared; none where it is refused.
pub type Work<'a> = Box<dyn Fn() -> Option<u64> + 'a>;

/// A call, over this reader and over gimli.
pub struct Sides<'a> {
    pub ours: Work<'a>,
    pub gimli: Work<'a>,
}

/// One side: `$work` is written in gimli's names and gives the closure that is timed, so that what it does before is not.
macro_rules! side {
    ($side:ident, $input:ident, $names:ident, $strings:ident, $work:expr) => {{
        #[allow(unused_imports)]
        use crate::$side::{DebugNames, DebugStr, Error, LittleEndian, NameTableIndex, work};
        let $names = DebugNames::new(&$input.names, LittleEndian);
        let $strings = DebugStr::new(&$input.strings, LittleEndian);
        let work = $work;
        Box::new(move || work().ok()) as Work
    }};
}

/// Both sides, where the same is written for both.
macro_rules! both {
    ($input:ident, $names:ident, $strings:ident, $work:expr) => {
        Sides { ours: side!(over_ours, $input, $names, $strings, $work), gimli: side!(over_gimli, $input, $names, $strings, $work) }
    };
}

/// The first index of a section.
macro_rules! first_index {
    ($names:ident) => {
        $names.headers().next().expect("a header can be read").expect("there is a header").index().expect("the index can be opened")
    };
}

/// So many records are lent to a query.
const LENT: usize = 16;

/// The section query. Over gimli it is the walk that `bench/run` has: the names of the hash, their strings, and the entries of those that
/// are equal.
pub fn query(input: &Input) -> Sides<'_> {
    query_with(input, LENT)
}

/// The same with a record for each entry, of which there are fewer than a 24th of the section's size times a half of it.
pub fn query_with_all(input: &Input) -> Sides<'_> {
    query_with(input, input.names.len() / 24 * (input.names.len() / 2))
}

fn query_with(input: &Input, records: usize) -> Sides<'_> {
    let asked = &input.asked;
    let ours = RefCell::new(vec![Record::default(); records]);
    let gimli = RefCell::new(vec![Record::default(); records]);
    Sides {
        ours: side!(over_ours, input, names, strings, move || names.query(&strings, asked.hash, &asked.name, &mut ours.borrow_mut())),
        gimli: side!(over_gimli, input, names, strings, move || { work::query_opening(&names, &strings, asked, &mut gimli.borrow_mut()) }),
    }
}

/// The section query for a name that no name of the section is. Over gimli the strings of all names are compared.
pub fn query_alone(input: &Input) -> Sides<'_> {
    let asked = &input.asked;
    let gimli = side!(over_gimli, input, names, strings, move || {
        let mut equal = 0;
        let mut headers = names.headers();
        while let Some(header) = headers.next()? {
            let index = header.index()?;
            for name in index.names() {
                equal += u64::from(index.name_string(name, &strings)?[..] == asked.name[..]);
            }
        }
        Ok::<u64, Error>(equal)
    });
    Sides { gimli, ..query(input) }
}

/// All entries of all names, a step each, with their facts.
pub fn entries(input: &Input) -> Sides<'_> {
    both!(input, names, _strings, {
        let kept = work::keep(&names).expect("the indexes can be opened");
        move || work::entries(&kept)
    })
}

/// Lookups by hash with all their steps, for the hash of each name in turn.
pub fn lookups(input: &Input) -> Sides<'_> {
    both!(input, names, _strings, {
        let kept = work::keep(&names).expect("the indexes can be opened");
        let hashes: Vec<(usize, u32)> = (0..input.count).map(|hash| (0, hash)).collect();
        move || work::find_by_hash(&kept, &hashes)
    })
}

/// One lookup by hash with its steps.
pub fn lookup(input: &Input) -> Sides<'_> {
    both!(input, names, _strings, {
        let kept = work::keep(&names).expect("the indexes can be opened");
        move || work::find_by_hash(&kept, &[(0, u32::MAX)])
    })
}

/// One bucket with its steps.
pub fn bucket(input: &Input) -> Sides<'_> {
    both!(input, names, _strings, {
        let index = first_index!(names);
        move || {
            let mut sum = 0;
            if let Some(mut names) = index.find_by_bucket(0)? {
                while let Some((name, hash)) = names.next()? {
                    sum += u64::from(name.0 ^ hash);
                }
            }
            Ok::<u64, Error>(sum)
        }
    })
}

/// The table check.
pub fn check(input: &Input) -> Sides<'_> {
    Sides {
        ours: side!(over_ours, input, names, _strings, {
            let kept = work::keep(&names).expect("the indexes can be opened");
            move || work::check(&kept, crate::over_ours::missed)
        }),
        gimli: side!(over_gimli, input, names, _strings, {
            let kept = work::keep(&names).expect("the indexes can be opened");
            move || work::check(&kept, work::missed)
        }),
    }
}

/// A walk over the headers.
pub fn headers(input: &Input) -> Sides<'_> {
    both!(input, names, _strings, move || {
        let mut sum = 0;
        let mut headers = names.headers();
        while let Some(header) = headers.next()? {
            sum += header.offset().0 as u64;
        }
        Ok::<u64, Error>(sum)
    })
}

/// A walk over the headers that opens their indexes.
pub fn open(input: &Input) -> Sides<'_> {
    both!(input, names, _strings, move || work::open(&names))
}

/// The string of one name.
pub fn name_string(input: &Input) -> Sides<'_> {
    both!(input, names, strings, {
        let index = first_index!(names);
        move || Ok::<u64, Error>(index.name_string(NameTableIndex(0), &strings)?.len() as u64)
    })
}

/// One entry, the first of a name, by a step.
pub fn next_entry(input: &Input) -> Sides<'_> {
    both!(input, names, _strings, {
        let index = first_index!(names);
        move || {
            let entry = index.name_entries(NameTableIndex(0))?.next()?;
            Ok::<u64, Error>(entry.map_or(0, |entry| entry.tag.0.into()))
        }
    })
}
