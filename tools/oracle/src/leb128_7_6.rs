//! The two readings of unsigned LEB128 numbers after section 7.6 of DWARF 5: a number may be padded to any number of bytes.
//!
//! gimli refuses a number of 64 bits whose tenth byte has the continuation bit, and one of 16 bits whose third byte has it, even where
//! all further bytes add only zero bits. The readings here take such numbers. For all others gimli is the yardstick, and each reading is
//! held to gimli's own. The program in tests/gimli compiles this file too, so that both have one rule.

use crate::leb128;
use crate::read::{Error, Reader, Result};

/// Bit 7 of a byte: another byte of the number follows.
const CONTINUATION_BIT: u8 = 0x80;

/// The bits of the number in a byte.
const BITS: u64 = 7;

/// A reading of a number.
type Reading<R> = fn(&mut R) -> Result<u64>;

/// Reads a number of 64 bits.
pub fn unsigned<R: Reader>(r: &mut R) -> Result<u64> {
    held_to_gimli(r, 64, leb128::read::unsigned)
}

/// Reads a number of 16 bits.
pub fn u16<R: Reader>(r: &mut R) -> Result<u16> {
    // Nothing is lost: no bit from 16 on is set.
    held_to_gimli(r, 16, |r| leb128::read::u16(r).map(u64::from)).map(|value| value as u16)
}

/// Section 7.6: byte after byte, each with seven bits of the number, the low ones first, up to the first byte without the continuation
/// bit. The number has bits at the positions below the width. A set bit at any other is refused at once, whatever stands behind its byte;
/// zero bits may stand there, in as many bytes as there are. A missing byte is refused as the reader refuses it.
fn number<R: Reader>(r: &mut R, width: u64) -> Result<u64> {
    let mut value = 0;
    let mut low = 0;
    loop {
        let byte = r.read_u8()?;
        for bit in 0..BITS {
            if byte >> bit & 1 == 1 {
                if low + bit >= width {
                    return Err(Error::BadUnsignedLeb128);
                }
                value |= 1 << (low + bit);
            }
        }
        if byte & CONTINUATION_BIT == 0 {
            return Ok(value);
        }
        low += BITS;
    }
}

/// Reads a number, and compares with gimli's own reading of the same bytes, unless the number is longer than gimli reads: the value or
/// the error, and where the reader stands after it.
fn held_to_gimli<R: Reader>(r: &mut R, width: u64, gimli: Reading<R>) -> Result<u64> {
    let mut copy = r.clone();
    let longer = goes_on_behind(r.clone(), width.div_ceil(BITS));
    let answer = number(r, width);
    if !longer {
        let theirs = gimli(&mut copy);
        let place = |r: &R| (r.offset_id(), r.len());
        assert_eq!((answer, place(r)), (theirs, place(&copy)));
    }
    answer
}

/// Whether the number has that many bytes, and the last of them has the continuation bit, as all before it must.
fn goes_on_behind<R: Reader>(mut r: R, bytes: u64) -> bool {
    (0..bytes).all(|_| r.read_u8().is_ok_and(|byte| byte & CONTINUATION_BIT != 0))
}
