//! Numbers into bytes: fixed widths in either byte order, words of either format, and LEB128.

/// The byte order of a section.
#[derive(Clone, Copy, PartialEq, Eq)]
pub enum Order {
    Little,
    Big,
}

/// Bytes that grow at their end, in one byte order.
pub struct Writer {
    pub order: Order,
    pub bytes: Vec<u8>,
}

impl Writer {
    pub fn new(order: Order) -> Writer {
        let bytes = Vec::new();
        Writer { order, bytes }
    }

    pub fn put(&mut self, bytes: &[u8]) {
        self.bytes.extend_from_slice(bytes);
    }

    /// The low `count` bytes of a number.
    fn number(&mut self, value: u64, count: usize) {
        let mut bytes = value.to_le_bytes()[..count].to_vec();
        if self.order == Order::Big {
            bytes.reverse();
        }
        self.put(&bytes);
    }

    pub fn u16(&mut self, value: u16) {
        self.number(value.into(), 2);
    }

    pub fn u32(&mut self, value: u32) {
        self.number(value.into(), 4);
    }

    pub fn u64(&mut self, value: u64) {
        self.number(value, 8);
    }

    /// A word: 8 bytes in 64-bit DWARF, else the low 4.
    pub fn word(&mut self, wide: bool, value: u64) {
        self.number(value, if wide { 8 } else { 4 });
    }
}

/// An unsigned LEB128 number in at least `least` bytes: a number may be longer than it needs to be.
pub fn leb128(mut value: u64, least: usize) -> Vec<u8> {
    let mut bytes = Vec::new();
    while value >= 0x80 || bytes.len() + 1 < least {
        bytes.push(value as u8 & 0x7f | 0x80);
        value >>= 7;
    }
    bytes.push(value as u8);
    bytes
}
