//! In the place of gimli's constants.rs: the types that the compiled files name, and the constants that names.rs compares with
//! (DWARF 5, sections 6.1.1.4.7 and 7.5.6).
#![allow(non_upper_case_globals)]

/// Types around a number, with the traits that gimli derives for its own.
macro_rules! numbers {
    ($($name:ident($number:ty)),+) => {
        $(#[derive(Debug, Clone, Copy, PartialEq, Eq)] pub struct $name(pub $number);)+
    };
}
numbers!(DwTag(u16), DwIdx(u16), DwForm(u16), DwOp(u8), DwCfa(u8), DwEhPe(u8), DwLle(u8), DwRle(u8));
numbers!(DwChildren(u8), DwUt(u8), DwSect(u32), DwSectV2(u32), DwMacinfo(u8), DwMacro(u8));

pub const DW_IDX_compile_unit: DwIdx = DwIdx(1);
pub const DW_IDX_type_unit: DwIdx = DwIdx(2);
pub const DW_IDX_die_offset: DwIdx = DwIdx(3);
pub const DW_IDX_parent: DwIdx = DwIdx(4);
pub const DW_IDX_type_hash: DwIdx = DwIdx(5);

pub const DW_FORM_data2: DwForm = DwForm(0x05);
pub const DW_FORM_data4: DwForm = DwForm(0x06);
pub const DW_FORM_data8: DwForm = DwForm(0x07);
pub const DW_FORM_data1: DwForm = DwForm(0x0b);
pub const DW_FORM_flag: DwForm = DwForm(0x0c);
pub const DW_FORM_udata: DwForm = DwForm(0x0f);
pub const DW_FORM_ref1: DwForm = DwForm(0x11);
pub const DW_FORM_ref2: DwForm = DwForm(0x12);
pub const DW_FORM_ref4: DwForm = DwForm(0x13);
pub const DW_FORM_ref8: DwForm = DwForm(0x14);
pub const DW_FORM_ref_udata: DwForm = DwForm(0x15);
pub const DW_FORM_flag_present: DwForm = DwForm(0x19);
