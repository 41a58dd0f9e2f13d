//! Document 01's words on where the parts of an index lie, and when a header and an index fit a section. Places are counted in 128 bits,
//! so that no sum is too large.

use crate::ffi::Index;

/// The places where the eight parts and the pool begin, and where the pool ends.
pub struct Layout {
    places: [u128; 9],
    end: u128,
}

impl Layout {
    /// None where the format is neither 4 nor 8.
    pub fn of(index: &Index) -> Option<Layout> {
        let word = match index.format {
            4 => 4,
            8 => 8,
            _ => return None,
        };
        let names: u128 = index.name_count.into();
        let sizes: [u128; 8] = [
            u128::from(index.compile_unit_count) * word,
            u128::from(index.local_type_unit_count) * word,
            u128::from(index.foreign_type_unit_count) * 8,
            u128::from(index.bucket_count) * 4,
            if index.bucket_count == 0 { 0 } else { names * 4 },
            names * word,
            names * word,
            index.abbrev_table_size.into(),
        ];
        let mut places = [index.begin as u128; 9];
        for (part, size) in sizes.into_iter().enumerate() {
            places[part + 1] = places[part] + size;
        }
        Some(Layout { places, end: index.end as u128 })
    }

    pub fn entry_offsets(&self) -> usize {
        self.places[6] as usize
    }

    pub fn abbreviations(&self) -> usize {
        self.places[7] as usize
    }

    pub fn pool(&self) -> usize {
        self.places[8] as usize
    }
}

/// The part after the augmentation lies inside the section.
pub fn header_fits(index: &Index, len: usize) -> bool {
    Layout::of(index).is_some() && index.begin <= index.end && index.end <= len
}

/// The eight parts and the pool follow one another in order and end inside the section.
pub fn fits(index: &Index, len: usize) -> bool {
    Layout::of(index).is_some_and(|layout| layout.places[8] <= layout.end && layout.end <= len as u128)
}
