//! What a section is made of, before it is bytes. A damage changes the parts here, or the bytes afterwards.

use crate::bytes::{Order, Writer};

/// A .debug_names section, and the .debug_str section beside it.
#[derive(Clone)]
pub struct Section {
    pub order: Order,
    pub indexes: Vec<Index>,
    pub strings: Vec<u8>,
}

/// A LEB128 number, as its bytes: a damage may put bytes here that are no number.
pub type Leb = Vec<u8>;

/// A declaration of an abbreviation table.
#[derive(Clone)]
pub struct Declaration {
    pub code: Leb,
    pub tag: Leb,
    /// Name and form of each attribute, and last the pair of zeros.
    pub pairs: Vec<(Leb, Leb)>,
}

/// What a header says that need not be true of what follows it.
#[derive(Clone, Copy)]
pub enum Count {
    CompileUnits,
    LocalTypeUnits,
    ForeignTypeUnits,
    Buckets,
    Names,
    AbbreviationBytes,
    AugmentationBytes,
}

/// In the order of the header.
pub const COUNTS: [Count; 7] = [
    Count::CompileUnits,
    Count::LocalTypeUnits,
    Count::ForeignTypeUnits,
    Count::Buckets,
    Count::Names,
    Count::AbbreviationBytes,
    Count::AugmentationBytes,
];

/// One index of a section.
#[derive(Clone)]
pub struct Index {
    /// 64-bit DWARF.
    pub wide: bool,
    pub version: u16,
    pub padding: [u8; 2],
    /// The augmentation without its padding.
    pub augmentation: Vec<u8>,
    pub compile_units: Vec<u64>,
    pub local_type_units: Vec<u64>,
    pub foreign_type_units: Vec<u64>,
    /// Empty where there is no hash table.
    pub buckets: Vec<u32>,
    pub hashes: Vec<u32>,
    pub string_offsets: Vec<u64>,
    pub entry_offsets: Vec<u64>,
    pub declarations: Vec<Declaration>,
    /// What follows the declarations in their table: a code 0 and bytes behind it, or nothing.
    pub table_end: Vec<u8>,
    pub pool: Vec<u8>,
    /// Counts that the header gives in place of the true ones.
    pub wrong: Vec<(Count, u32)>,
}

impl Index {
    /// What the header says of a count.
    pub fn count(&self, count: Count) -> u32 {
        for (which, value) in &self.wrong {
            if *which as usize == count as usize {
                return *value;
            }
        }
        self.true_count(count)
    }

    pub fn true_count(&self, count: Count) -> u32 {
        let number = match count {
            Count::CompileUnits => self.compile_units.len(),
            Count::LocalTypeUnits => self.local_type_units.len(),
            Count::ForeignTypeUnits => self.foreign_type_units.len(),
            Count::Buckets => self.buckets.len(),
            Count::Names => self.string_offsets.len(),
            Count::AbbreviationBytes => self.table().len(),
            Count::AugmentationBytes => self.augmentation.len(),
        };
        number as u32
    }

    /// The bytes of the abbreviation table.
    pub fn table(&self) -> Vec<u8> {
        let mut bytes = Vec::new();
        for declaration in &self.declarations {
            bytes.extend(&declaration.code);
            bytes.extend(&declaration.tag);
            for (name, form) in &declaration.pairs {
                bytes.extend(name);
                bytes.extend(form);
            }
        }
        bytes.extend(&self.table_end);
        bytes
    }

    /// The bytes of the length field: a 64-bit length stands behind 0xffffffff.
    pub fn length_bytes(&self) -> usize {
        if self.wide { 12 } else { 4 }
    }

    /// The index without its length field.
    fn body(&self, order: Order) -> Vec<u8> {
        let mut out = Writer::new(order);
        out.u16(self.version);
        out.put(&self.padding);
        for count in COUNTS {
            out.u32(self.count(count));
        }
        out.put(&self.augmentation);
        out.put(&vec![0; (4 - self.augmentation.len() % 4) % 4]);
        for unit in self.compile_units.iter().chain(&self.local_type_units) {
            out.word(self.wide, *unit);
        }
        for signature in &self.foreign_type_units {
            out.u64(*signature);
        }
        for number in self.buckets.iter().chain(&self.hashes) {
            out.u32(*number);
        }
        for offset in self.string_offsets.iter().chain(&self.entry_offsets) {
            out.word(self.wide, *offset);
        }
        out.put(&self.table());
        out.put(&self.pool);
        out.bytes
    }

    /// A length field.
    pub fn length_field(&self, order: Order, length: u64) -> Vec<u8> {
        let mut out = Writer::new(order);
        if self.wide {
            out.u32(0xffff_ffff);
        }
        out.word(self.wide, length);
        out.bytes
    }

    pub fn encode(&self, order: Order) -> Vec<u8> {
        let body = self.body(order);
        let mut bytes = self.length_field(order, body.len() as u64);
        bytes.extend(body);
        bytes
    }
}

impl Section {
    /// The bytes of .debug_names, and the place where each index begins.
    pub fn encode(&self) -> (Vec<u8>, Vec<usize>) {
        let mut bytes = Vec::new();
        let mut starts = Vec::new();
        for index in &self.indexes {
            starts.push(bytes.len());
            bytes.extend(index.encode(self.order));
        }
        (bytes, starts)
    }
}
