//! A case: the bytes of two sections and their byte order; and the file of cases.
//!
//! The file: the number of cases (2 bytes), then for each case the byte order (1 byte, 0 little and 1 big), the length of
//! .debug_names and that of .debug_str (2 bytes each), and the bytes of the two. All numbers are little-endian. The lengths are at
//! most 4,096, so that a reader can keep a case in two small buffers.

use crate::bytes::Order;
use crate::model::Section;

/// The most bytes of a section.
const LONGEST: usize = 4096;

#[derive(Clone)]
pub struct Case {
    pub order: Order,
    /// The bytes of .debug_names.
    pub names: Vec<u8>,
    /// The bytes of .debug_str.
    pub strings: Vec<u8>,
}

impl Case {
    /// A section with these bytes in place of its own.
    pub fn of(section: &Section, names: Vec<u8>) -> Case {
        let strings = section.strings.clone();
        Case { order: section.order, names, strings }
    }

    /// A section as it is.
    pub fn encoded(section: &Section) -> Case {
        Case::of(section, section.encode().0)
    }

    fn write(&self, out: &mut Vec<u8>) {
        assert!(self.names.len() <= LONGEST && self.strings.len() <= LONGEST);
        out.push(match self.order {
            Order::Little => 0,
            Order::Big => 1,
        });
        out.extend((self.names.len() as u16).to_le_bytes());
        out.extend((self.strings.len() as u16).to_le_bytes());
        out.extend(&self.names);
        out.extend(&self.strings);
    }
}

/// The file of cases.
pub fn file(cases: &[Case]) -> Vec<u8> {
    let mut out = u16::try_from(cases.len()).unwrap().to_le_bytes().to_vec();
    for case in cases {
        case.write(&mut out);
    }
    out
}
