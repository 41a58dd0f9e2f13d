//! A section made for a handle, so that gimli can read what any handle describes: one header with the handle's numbers, and behind it the
//! bytes from the handle's begin to its end.

use crate::ffi::Index;
use gimli::bytes::{Order, Writer};
use gimli::case::Case;
use gimli::lent::{Bytes, Memory};
use gimli::{DebugNames, NameIndexHeader, Reader, RunTimeEndian};

pub struct Copy {
    case: Case,
    /// Where the bytes behind the header begin, here and in the section that they are from.
    here: usize,
    there: usize,
}

impl Copy {
    /// In a byte order. The handle must fit as a header.
    pub fn of(case: &Case, order: Order, index: &Index) -> Copy {
        let content = &case.names[index.begin..index.end];
        let wide = index.format == 8;
        let mut out = Writer::new(order);
        if wide {
            out.u32(0xffff_ffff);
        }
        out.word(wide, (32 + content.len()) as u64);
        out.u16(5);
        out.u16(0);
        for count in [
            index.compile_unit_count,
            index.local_type_unit_count,
            index.foreign_type_unit_count,
            index.bucket_count,
            index.name_count,
            index.abbrev_table_size,
            0,
        ] {
            out.u32(count);
        }
        let here = out.bytes.len();
        out.put(content);
        let case = Case { order, names: out.bytes, strings: case.strings.clone() };
        Copy { case, here, there: index.begin }
    }

    pub fn memory(&self) -> Memory {
        Memory::of(&self.case)
    }

    /// What is added to a place here to have it in the section that the bytes are from.
    pub fn shift(&self) -> u64 {
        (self.there as u64).wrapping_sub(self.here as u64)
    }

    /// A word of the section that the bytes are from is another one here.
    pub fn put_word(&mut self, place: usize, format: u32, value: u64) {
        let mut word = Writer::new(self.case.order);
        word.word(format == 8, value);
        let place = place - self.there + self.here;
        self.case.names[place..place + word.bytes.len()].copy_from_slice(&word.bytes);
    }

    /// An abbreviation table, from and up to places of the section that the bytes are from, ends here before its first declaration that
    /// cannot be read.
    pub fn end_table(&mut self, from: usize, to: usize) {
        let place = |place: usize| place - self.there + self.here;
        let table = Bytes::new(&self.case.names[place(from)..place(to)], RunTimeEndian::Little);
        let bad = place(from) + good_declarations(table);
        self.case.names[bad] = 0;
    }
}

/// How many bytes the declarations have that stand before the first that cannot be read.
fn good_declarations(table: Bytes) -> usize {
    let mut rest = table;
    loop {
        let good = table.len() - rest.len();
        if declaration(&mut rest).is_none() {
            return good;
        }
    }
}

/// Passes over a declaration; none where it cannot be read.
fn declaration(table: &mut Bytes) -> Option<()> {
    table.read_uleb128().ok()?;
    if table.read_uleb128_u16().ok()? == 0 {
        return None;
    }
    loop {
        match (table.read_uleb128_u16().ok()?, table.read_uleb128_u16().ok()?) {
            (0, 0) => return Some(()),
            (0, _) | (_, 0) => return None,
            _ => {}
        }
    }
}

/// The only header of a copy.
pub fn header<'a>(names: Bytes<'a>) -> NameIndexHeader<Bytes<'a>> {
    let header = DebugNames::from(names).headers().next();
    header.expect("the header of a copy").expect("the header of a copy")
}
