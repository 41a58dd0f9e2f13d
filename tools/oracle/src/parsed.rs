//! A section that is well-formed, back into what it is made of.

use crate::bytes::Order;
use crate::case::Case;
use crate::model::{Declaration, Index, Section};

/// The parts of a section. They are its bytes again, which is tested. It panics where the section is not well-formed.
pub fn section(case: &Case) -> Section {
    let mut indexes = Vec::new();
    let mut rest = Rest { order: case.order, bytes: &case.names };
    while !rest.bytes.is_empty() {
        indexes.push(index(&mut rest));
    }
    let section = Section { order: case.order, indexes, strings: case.strings.clone() };
    assert!(section.encode().0 == case.names, "the parts of a section are not its bytes");
    section
}

/// Bytes that are taken from their start, in one byte order.
struct Rest<'a> {
    order: Order,
    bytes: &'a [u8],
}

impl<'a> Rest<'a> {
    fn take(&mut self, count: usize) -> &'a [u8] {
        let (taken, bytes) = self.bytes.split_at_checked(count).expect("a section that ends early");
        self.bytes = bytes;
        taken
    }

    fn part(&mut self, count: usize) -> Rest<'a> {
        Rest { order: self.order, bytes: self.take(count) }
    }

    fn u32(&mut self) -> u32 {
        // Nothing is lost: it has four bytes.
        number(self.order, self.take(4)) as u32
    }

    fn count(&mut self) -> usize {
        self.u32() as usize
    }

    /// A list of numbers of so many bytes each.
    fn list(&mut self, count: usize, bytes: usize) -> Vec<u64> {
        (0..count).map(|_| number(self.order, self.take(bytes))).collect()
    }

    fn list_of_u32(&mut self, count: usize) -> Vec<u32> {
        (0..count).map(|_| self.u32()).collect()
    }

    fn leb128(&mut self) -> Vec<u8> {
        let (leb, _) = first_leb128(self.bytes).expect("a number that does not end");
        self.take(leb.len()).to_vec()
    }
}

/// The number of these bytes, at most eight.
pub fn number(order: Order, bytes: &[u8]) -> u64 {
    let append = |number: u64, byte: &u8| number << 8 | u64::from(*byte);
    match order {
        Order::Little => bytes.iter().rev().fold(0, append),
        Order::Big => bytes.iter().fold(0, append),
    }
}

/// The bytes of the LEB128 number at the start, and those behind it; none where it does not end.
pub fn first_leb128(bytes: &[u8]) -> Option<(&[u8], &[u8])> {
    let last = bytes.iter().position(|byte| byte & 0x80 == 0)?;
    Some(bytes.split_at(last + 1))
}

/// The number of these LEB128 bytes; none where it has more than 64 bits.
pub fn leb128_value(leb: &[u8]) -> Option<u64> {
    let mut value = 0;
    for (place, byte) in leb.iter().enumerate() {
        let bits = u64::from(byte & 0x7f);
        let shift = 7 * place as u32;
        let shifted = bits.checked_shl(shift).unwrap_or(0);
        if shifted.checked_shr(shift).unwrap_or(0) != bits {
            return None;
        }
        value |= shifted;
    }
    Some(value)
}

/// The next index.
fn index(section: &mut Rest) -> Index {
    let first = section.u32();
    let wide = first == 0xffff_ffff;
    let (length, word) = if wide { (section.list(1, 8)[0], 8) } else { (first.into(), 4) };
    let mut rest = section.part(length as usize);
    let version = number(rest.order, rest.take(2)) as u16;
    assert_eq!(version, 5, "a version that is not 5");
    let padding = [rest.take(1)[0], rest.take(1)[0]];
    let counts: [usize; 7] = std::array::from_fn(|_| rest.count());
    let [compile_units, local_type_units, foreign_type_units, buckets, names, table, augmentation] = counts;
    let augmentation = rest.take(augmentation).to_vec();
    rest.take((4 - augmentation.len() % 4) % 4);
    let compile_units = rest.list(compile_units, word);
    let local_type_units = rest.list(local_type_units, word);
    let foreign_type_units = rest.list(foreign_type_units, 8);
    let buckets = rest.list_of_u32(buckets);
    let hashes = rest.list_of_u32(if buckets.is_empty() { 0 } else { names });
    let string_offsets = rest.list(names, word);
    let entry_offsets = rest.list(names, word);
    let (declarations, table_end) = declarations(rest.part(table));
    Index {
        wide,
        version,
        padding,
        augmentation,
        compile_units,
        local_type_units,
        foreign_type_units,
        buckets,
        hashes,
        string_offsets,
        entry_offsets,
        declarations,
        table_end,
        pool: rest.bytes.to_vec(),
        wrong: Vec::new(),
    }
}

/// The declarations up to the code 0 or the table's end, and what follows them.
fn declarations(mut rest: Rest) -> (Vec<Declaration>, Vec<u8>) {
    let mut declarations = Vec::new();
    while !rest.bytes.is_empty() {
        let end = rest.bytes;
        let code = rest.leb128();
        if is_zero(&code) {
            return (declarations, end.to_vec());
        }
        declarations.push(declaration(code, &mut rest));
    }
    (declarations, Vec::new())
}

/// The declaration of a code, up to the pair of zeros.
fn declaration(code: Vec<u8>, rest: &mut Rest) -> Declaration {
    let tag = rest.leb128();
    let mut pairs = Vec::new();
    loop {
        let (name, form) = (rest.leb128(), rest.leb128());
        assert_eq!(is_zero(&name), is_zero(&form), "a zero beside a number in a table");
        let last = is_zero(&name);
        pairs.push((name, form));
        if last {
            return Declaration { code, tag, pairs };
        }
    }
}

fn is_zero(leb: &[u8]) -> bool {
    leb128_value(leb) == Some(0)
}
