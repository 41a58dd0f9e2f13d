//! LEB128 numbers padded to more bytes than they need, as an assembler may: they stand for the same numbers. In a pool what stands behind
//! them moves, and the entry offsets of names and the parents of entries follow.

use std::collections::BTreeMap;

use crate::bytes::{Order, leb128};
use crate::case::Case;
use crate::entries;
use crate::model::{Index, Leb, Section};
use crate::parsed::{self, first_leb128, leb128_value};
use crate::real;

/// The form of a reference that is a LEB128 number.
const REF_UDATA: u64 = 0x15;

/// The attribute that is a parent.
const PARENT: u64 = 4;

/// The sections of tests/real that are padded: one with the numbers of units in LEB128, one with parents, and one of several indexes.
const REAL: [&str; 3] = ["gdb13", "clang19-nested", "clang14-three"];

/// Each of these, and the same with its numbers of 16 bits padded to five bytes, and those of 64 bits to twelve.
pub fn real_cases() -> Vec<(Case, Case)> {
    let pair = |name: &str| {
        let case = real::case(name);
        let padded = section(&parsed::section(&case), 5, 12).unwrap_or_else(|| panic!("{name} cannot be padded"));
        (case, Case::encoded(&padded))
    };
    REAL.into_iter().map(pair).collect()
}

/// A section whose numbers of 16 and of 64 bits have at least so many bytes.
fn section(section: &Section, sixteen: usize, sixty_four: usize) -> Option<Section> {
    let padded = |own: &Index| index(section.order, own, sixteen, sixty_four);
    let indexes: Option<Vec<Index>> = section.indexes.iter().map(padded).collect();
    Some(Section { indexes: indexes?, ..section.clone() })
}

/// An index whose numbers of 16 and of 64 bits have at least so many bytes; none where its pool cannot be padded.
fn index(order: Order, index: &Index, sixteen: usize, sixty_four: usize) -> Option<Index> {
    let mut index = index.clone();
    let mut pool = Pool::of(order, &index)?;
    for mut number in table(&mut index).into_iter().chain(pool.numbers()) {
        number.pad(if number.bits == 16 { sixteen } else { sixty_four });
    }
    pool.put(&mut index)?;
    Some(index)
}

/// A LEB128 number at the start of some bytes.
pub struct Number<'a> {
    /// It is a number of 16 or of 64 bits.
    pub bits: usize,
    pub bytes: &'a mut Vec<u8>,
}

impl Number<'_> {
    /// How many bytes the number has.
    pub fn size(&self) -> usize {
        first_leb128(self.bytes).expect("a number that does not end").0.len()
    }

    /// How many bytes hold all its bits: ten or three.
    pub fn enough(&self) -> usize {
        self.bits.div_ceil(7)
    }

    /// Pads the number to at least so many bytes.
    pub fn pad(&mut self, least: usize) {
        let len = self.size();
        if len < least {
            self.bytes[len - 1] |= 0x80;
            let mut zeros = vec![0x80; least - len];
            zeros[least - len - 1] = 0;
            self.bytes.splice(len..len, zeros);
        }
    }
}

/// The numbers of an abbreviation table, in their order. The last may have bytes behind it that are not read.
pub fn table(index: &mut Index) -> Vec<Number<'_>> {
    let mut numbers = Vec::new();
    for declaration in &mut index.declarations {
        numbers.push(Number { bits: 64, bytes: &mut declaration.code });
        numbers.push(Number { bits: 16, bytes: &mut declaration.tag });
        for (name, form) in &mut declaration.pairs {
            numbers.push(Number { bits: 16, bytes: name });
            numbers.push(Number { bits: 16, bytes: form });
        }
    }
    if !index.table_end.is_empty() {
        numbers.push(Number { bits: 64, bytes: &mut index.table_end });
    }
    numbers
}

/// A pool as its pieces.
pub struct Pool {
    order: Order,
    pieces: Vec<Piece>,
    /// The place of its end, before anything was padded.
    end: u64,
}

/// A code or a value of a pool.
struct Piece {
    kind: Kind,
    bytes: Vec<u8>,
}

/// Places are those before anything was padded.
enum Kind {
    /// The code of an entry, or the 0 behind a series, and its place.
    Code(u64),
    /// A value that is a LEB128 number.
    Value,
    /// A value of fixed length.
    Fixed,
    /// A parent, by its form.
    Parent { form: u64, place: u64 },
}

impl Piece {
    fn is_number(&self) -> bool {
        match self.kind {
            Kind::Code(_) | Kind::Value => true,
            Kind::Fixed => false,
            Kind::Parent { form, .. } => form == REF_UDATA,
        }
    }
}

impl Pool {
    /// The pool of an index, entry after entry from its start; none where that cannot be read.
    pub fn of(order: Order, index: &Index) -> Option<Pool> {
        let end = index.pool.len() as u64;
        let declared = declared(index)?;
        let mut pieces = Vec::new();
        let mut rest = &index.pool[..];
        while !rest.is_empty() {
            let place = end - rest.len() as u64;
            let (code, values) = first_leb128(rest)?;
            pieces.push(Piece { kind: Kind::Code(place), bytes: code.to_vec() });
            rest = values;
            let code = leb128_value(code)?;
            if code != 0 {
                let (_, attributes) = declared.iter().find(|(declared, _)| *declared == code)?;
                for (name, form) in attributes {
                    let (piece, behind) = value(order, *name, *form, rest)?;
                    pieces.push(piece);
                    rest = behind;
                }
            }
        }
        Some(Pool { order, pieces, end })
    }

    /// Its LEB128 numbers, in their order.
    pub fn numbers(&mut self) -> Vec<Number<'_>> {
        let numbers = self.pieces.iter_mut().filter(|piece| piece.is_number());
        numbers.map(|piece| Number { bits: 64, bytes: &mut piece.bytes }).collect()
    }

    /// Puts the pool into its index, and gives the place of each of its numbers. The offsets of names and the parents are made to fit;
    /// where one is no place of a code, or a parent does not fit its form, the index stays as it is.
    pub fn put(mut self, index: &mut Index) -> Option<Vec<usize>> {
        self.move_parents()?;
        let moved = self.moved();
        let offsets: Option<Vec<u64>> = index.entry_offsets.iter().map(|offset| moved.get(offset).copied()).collect();
        index.entry_offsets = offsets?;
        index.pool.clear();
        let mut places = Vec::new();
        for piece in &self.pieces {
            if piece.is_number() {
                places.push(index.pool.len());
            }
            index.pool.extend(&piece.bytes);
        }
        Some(places)
    }

    /// From the old place of each code, and of the pool's end, to the new one.
    fn moved(&self) -> BTreeMap<u64, u64> {
        let mut moved = BTreeMap::new();
        let mut place = 0;
        for piece in &self.pieces {
            if let Kind::Code(old) = piece.kind {
                moved.insert(old, place);
            }
            place += piece.bytes.len() as u64;
        }
        moved.insert(self.end, place);
        moved
    }

    /// Parents at their new places. One in LEB128 may become longer by that, and then all are moved again; one that is no number stays.
    fn move_parents(&mut self) -> Option<()> {
        loop {
            let moved = self.moved();
            let mut longer = false;
            for piece in &mut self.pieces {
                if let Kind::Parent { form, place } = piece.kind {
                    let len = piece.bytes.len();
                    piece.bytes = parent(self.order, form, *moved.get(&place)?, &piece.bytes)?;
                    longer |= piece.bytes.len() > len;
                }
            }
            if !longer {
                return Some(());
            }
        }
    }
}

/// The bytes of a parent in the place of others; none where it does not fit its form.
fn parent(order: Order, form: u64, place: u64, old: &[u8]) -> Option<Vec<u8>> {
    if form == REF_UDATA {
        return Some(leb128_value(old).map_or(old.to_vec(), |_| leb128(place, old.len())));
    }
    let bytes = entries::value(order, form as u16, place);
    (parsed::number(order, &bytes) == place).then_some(bytes)
}

/// A code, and name and form of each attribute.
type Declared = (u64, Vec<(u64, u64)>);

/// The declarations of an index.
fn declared(index: &Index) -> Option<Vec<Declared>> {
    let pair = |(name, form): &(Leb, Leb)| Some((leb128_value(name)?, leb128_value(form)?));
    let mut declared = Vec::new();
    for declaration in &index.declarations {
        let (_, attributes) = declaration.pairs.split_last()?;
        let attributes: Option<Vec<(u64, u64)>> = attributes.iter().map(pair).collect();
        declared.push((leb128_value(&declaration.code)?, attributes?));
    }
    Some(declared)
}

/// The value of an attribute at the start of the bytes, and those behind it; none where it is cut short, or of another form than the
/// twelve.
fn value(order: Order, name: u64, form: u64, bytes: &[u8]) -> Option<(Piece, &[u8])> {
    let len = match form {
        0x19 => 0,
        0x0c | 0x0b | 0x11 => 1,
        0x05 | 0x12 => 2,
        0x06 | 0x13 => 4,
        0x07 | 0x14 => 8,
        0x0f | REF_UDATA => first_leb128(bytes)?.0.len(),
        _ => return None,
    };
    let (own, behind) = bytes.split_at_checked(len)?;
    let kind = match form {
        REF_UDATA if name == PARENT => Kind::Parent { form, place: leb128_value(own)? },
        0x11..=0x14 if name == PARENT => Kind::Parent { form, place: parsed::number(order, own) },
        0x0f | REF_UDATA => Kind::Value,
        _ => Kind::Fixed,
    };
    Some((Piece { kind, bytes: own.to_vec() }, behind))
}
