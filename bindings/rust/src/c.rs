//! The C functions of `include/skriduhol.h`, and the only unsafe code of this crate.
//!
//! Every call is safe for one reason: each pointer and length come from one Rust slice or reference, which is valid, aligned
//! and not null for the whole call; what is written to is lent by `&mut`, so nothing else points to it; and no function keeps a
//! pointer after it returns.
#![allow(unsafe_code)]

use crate::{Hypothesis, TermMemory, BOARD_ROOM, SLOT_COUNT};

extern "C" {
    fn skriduhol_plain_text(
        sheet: *const u8,
        sheet_length: usize,
        out: *mut u8,
        room: usize,
        value: *mut usize,
        column: *mut usize,
    ) -> u8;
    fn skriduhol_strict_text(
        sheet: *const u8,
        sheet_length: usize,
        out: *mut u8,
        room: usize,
        value: *mut usize,
        column: *mut usize,
    ) -> u8;
    fn skriduhol_atom_list(
        sheet: *const u8,
        sheet_length: usize,
        out: *mut u16,
        room: usize,
        value: *mut usize,
        column: *mut usize,
    ) -> u8;
    fn skriduhol_datatype_list(
        sheet: *const u8,
        sheet_length: usize,
        out: *mut u16,
        room: usize,
        value: *mut usize,
        column: *mut usize,
    ) -> u8;
    fn skriduhol_handout_plain(
        sheet: *const u8,
        sheet_length: usize,
        version: usize,
        out: *mut u8,
        room: usize,
        value: *mut usize,
        column: *mut usize,
    ) -> u8;
    fn skriduhol_handout_strict(
        sheet: *const u8,
        sheet_length: usize,
        version: usize,
        out: *mut u8,
        room: usize,
        value: *mut usize,
        column: *mut usize,
    ) -> u8;
    fn skriduhol_handout_datatypes(
        sheet: *const u8,
        sheet_length: usize,
        version: usize,
        out: *mut u16,
        room: usize,
        value: *mut usize,
        column: *mut usize,
    ) -> u8;
    fn skriduhol_plain_text_length(
        sheet: *const u8,
        sheet_length: usize,
        value: *mut usize,
        column: *mut usize,
    ) -> u8;
    fn skriduhol_strict_text_length(
        sheet: *const u8,
        sheet_length: usize,
        value: *mut usize,
        column: *mut usize,
    ) -> u8;
    fn skriduhol_atom_list_length(
        sheet: *const u8,
        sheet_length: usize,
        value: *mut usize,
        column: *mut usize,
    ) -> u8;
    fn skriduhol_datatype_list_length(
        sheet: *const u8,
        sheet_length: usize,
        value: *mut usize,
        column: *mut usize,
    ) -> u8;
    fn skriduhol_handout_plain_length(
        sheet: *const u8,
        sheet_length: usize,
        version: usize,
        value: *mut usize,
        column: *mut usize,
    ) -> u8;
    fn skriduhol_handout_strict_length(
        sheet: *const u8,
        sheet_length: usize,
        version: usize,
        value: *mut usize,
        column: *mut usize,
    ) -> u8;
    fn skriduhol_handout_datatypes_length(
        sheet: *const u8,
        sheet_length: usize,
        version: usize,
        value: *mut usize,
        column: *mut usize,
    ) -> u8;
    fn skriduhol_label_count(
        sheet: *const u8,
        sheet_length: usize,
        value: *mut usize,
        column: *mut usize,
    ) -> u8;
    fn skriduhol_compare(
        sheet: *const u8,
        sheet_length: usize,
        i: usize,
        j: usize,
        value: *mut usize,
        column: *mut usize,
    ) -> u8;
    fn skriduhol_judge(
        sheet: *const u8,
        sheet_length: usize,
        hypotheses: *const u16,
        hypothesis_numbers: usize,
        proposition: usize,
        value: *mut usize,
        column: *mut usize,
        node: *mut usize,
    ) -> u8;
    fn skriduhol_restate(
        sheet: *const u8,
        sheet_length: usize,
        given: *const u16,
        slots: *mut u16,
        out: *mut u8,
        room: usize,
        value: *mut usize,
        column: *mut usize,
    ) -> u8;
    fn skriduhol_graft(
        host: *const u8,
        host_length: usize,
        step: usize,
        donor: *const u8,
        donor_length: usize,
        slots: *mut u16,
        out: *mut u8,
        room: usize,
        value: *mut usize,
        column: *mut usize,
        whose: *mut usize,
    ) -> u8;
    fn skriduhol_read_term(
        text: *const u8,
        text_length: usize,
        datatypes: *const u8,
        datatypes_length: usize,
        records: *mut u16,
        records_room: usize,
        names: *mut u8,
        names_room: usize,
        code: *mut u8,
        code_room: usize,
        value: *mut usize,
        column: *mut usize,
        name_count: *mut usize,
        code_length: *mut usize,
    ) -> u8;
    fn skriduhol_read_term_length(
        text: *const u8,
        text_length: usize,
        datatypes: *const u8,
        datatypes_length: usize,
        value: *mut usize,
        column: *mut usize,
        name_count: *mut usize,
        code_length: *mut usize,
    ) -> u8;
    fn skriduhol_exercise(
        names: *const u8,
        names_length: usize,
        n: usize,
        ordinal: usize,
        out: *mut u8,
        room: usize,
        value: *mut usize,
        column: *mut usize,
    ) -> u8;
    fn skriduhol_restate_length(
        sheet: *const u8,
        sheet_length: usize,
        given: *const u16,
        value: *mut usize,
        column: *mut usize,
    ) -> u8;
    fn skriduhol_graft_length(
        host: *const u8,
        host_length: usize,
        step: usize,
        donor: *const u8,
        donor_length: usize,
        value: *mut usize,
        column: *mut usize,
        whose: *mut usize,
    ) -> u8;
    fn skriduhol_exercise_length(
        names: *const u8,
        names_length: usize,
        n: usize,
        ordinal: usize,
        value: *mut usize,
        column: *mut usize,
    ) -> u8;
    fn skriduhol_name_index(
        sheet: *const u8,
        sheet_length: usize,
        slots: *mut u16,
        value: *mut usize,
        column: *mut usize,
    ) -> u8;
    fn skriduhol_find_name(
        sheet: *const u8,
        sheet_length: usize,
        slots: *const u16,
        name: *const u8,
        name_length: usize,
        value: *mut usize,
        column: *mut usize,
    ) -> u8;
    fn skriduhol_board_output(sheet: *const u8, sheet_length: usize, out: *mut u8) -> usize;
}

pub fn plain_text(sheet: &[u8], out: &mut [u8], value: &mut usize, column: &mut usize) -> u8 {
    unsafe {
        skriduhol_plain_text(
            sheet.as_ptr(),
            sheet.len(),
            out.as_mut_ptr(),
            out.len(),
            value,
            column,
        )
    }
}

pub fn strict_text(sheet: &[u8], out: &mut [u8], value: &mut usize, column: &mut usize) -> u8 {
    unsafe {
        skriduhol_strict_text(
            sheet.as_ptr(),
            sheet.len(),
            out.as_mut_ptr(),
            out.len(),
            value,
            column,
        )
    }
}

pub fn atom_list(sheet: &[u8], out: &mut [u16], value: &mut usize, column: &mut usize) -> u8 {
    unsafe {
        skriduhol_atom_list(
            sheet.as_ptr(),
            sheet.len(),
            out.as_mut_ptr(),
            out.len(),
            value,
            column,
        )
    }
}

pub fn datatype_list(sheet: &[u8], out: &mut [u16], value: &mut usize, column: &mut usize) -> u8 {
    unsafe {
        skriduhol_datatype_list(
            sheet.as_ptr(),
            sheet.len(),
            out.as_mut_ptr(),
            out.len(),
            value,
            column,
        )
    }
}

pub fn handout_plain(
    sheet: &[u8],
    version: usize,
    out: &mut [u8],
    value: &mut usize,
    column: &mut usize,
) -> u8 {
    unsafe {
        skriduhol_handout_plain(
            sheet.as_ptr(),
            sheet.len(),
            version,
            out.as_mut_ptr(),
            out.len(),
            value,
            column,
        )
    }
}

pub fn handout_strict(
    sheet: &[u8],
    version: usize,
    out: &mut [u8],
    value: &mut usize,
    column: &mut usize,
) -> u8 {
    unsafe {
        skriduhol_handout_strict(
            sheet.as_ptr(),
            sheet.len(),
            version,
            out.as_mut_ptr(),
            out.len(),
            value,
            column,
        )
    }
}

pub fn handout_datatypes(
    sheet: &[u8],
    version: usize,
    out: &mut [u16],
    value: &mut usize,
    column: &mut usize,
) -> u8 {
    unsafe {
        skriduhol_handout_datatypes(
            sheet.as_ptr(),
            sheet.len(),
            version,
            out.as_mut_ptr(),
            out.len(),
            value,
            column,
        )
    }
}

pub fn plain_text_length(sheet: &[u8], value: &mut usize, column: &mut usize) -> u8 {
    unsafe { skriduhol_plain_text_length(sheet.as_ptr(), sheet.len(), value, column) }
}

pub fn strict_text_length(sheet: &[u8], value: &mut usize, column: &mut usize) -> u8 {
    unsafe { skriduhol_strict_text_length(sheet.as_ptr(), sheet.len(), value, column) }
}

pub fn atom_list_length(sheet: &[u8], value: &mut usize, column: &mut usize) -> u8 {
    unsafe { skriduhol_atom_list_length(sheet.as_ptr(), sheet.len(), value, column) }
}

pub fn datatype_list_length(sheet: &[u8], value: &mut usize, column: &mut usize) -> u8 {
    unsafe { skriduhol_datatype_list_length(sheet.as_ptr(), sheet.len(), value, column) }
}

pub fn handout_plain_length(
    sheet: &[u8],
    version: usize,
    value: &mut usize,
    column: &mut usize,
) -> u8 {
    unsafe { skriduhol_handout_plain_length(sheet.as_ptr(), sheet.len(), version, value, column) }
}

pub fn handout_strict_length(
    sheet: &[u8],
    version: usize,
    value: &mut usize,
    column: &mut usize,
) -> u8 {
    unsafe { skriduhol_handout_strict_length(sheet.as_ptr(), sheet.len(), version, value, column) }
}

pub fn handout_datatypes_length(
    sheet: &[u8],
    version: usize,
    value: &mut usize,
    column: &mut usize,
) -> u8 {
    unsafe {
        skriduhol_handout_datatypes_length(sheet.as_ptr(), sheet.len(), version, value, column)
    }
}

pub fn label_count(sheet: &[u8], value: &mut usize, column: &mut usize) -> u8 {
    unsafe { skriduhol_label_count(sheet.as_ptr(), sheet.len(), value, column) }
}

pub fn compare(sheet: &[u8], i: usize, j: usize, value: &mut usize, column: &mut usize) -> u8 {
    unsafe { skriduhol_compare(sheet.as_ptr(), sheet.len(), i, j, value, column) }
}

/// A hypothesis is two numbers in the order of C, so that its slice is one of twice as many numbers.
pub fn judge(
    sheet: &[u8],
    hypotheses: &[Hypothesis],
    proposition: usize,
    value: &mut usize,
    column: &mut usize,
    node: &mut usize,
) -> u8 {
    unsafe {
        skriduhol_judge(
            sheet.as_ptr(),
            sheet.len(),
            hypotheses.as_ptr().cast(),
            2 * hypotheses.len(),
            proposition,
            value,
            column,
            node,
        )
    }
}

pub fn board_output(sheet: &[u8], out: &mut [u8; BOARD_ROOM]) -> usize {
    unsafe { skriduhol_board_output(sheet.as_ptr(), sheet.len(), out.as_mut_ptr()) }
}

pub fn restate(
    sheet: &[u8],
    given: &[u16; 5],
    slots: &mut [u16; 1024],
    out: &mut [u8],
    value: &mut usize,
    column: &mut usize,
) -> u8 {
    unsafe {
        skriduhol_restate(
            sheet.as_ptr(),
            sheet.len(),
            given.as_ptr(),
            slots.as_mut_ptr(),
            out.as_mut_ptr(),
            out.len(),
            value,
            column,
        )
    }
}

/// A host, one of its steps, and a donor.
pub struct Two<'a> {
    pub host: &'a [u8],
    pub step: usize,
    pub donor: &'a [u8],
}

pub fn graft(
    two: Two,
    slots: &mut [u16; SLOT_COUNT],
    out: &mut [u8],
    value: &mut usize,
    column: &mut usize,
    whose: &mut usize,
) -> u8 {
    unsafe {
        skriduhol_graft(
            two.host.as_ptr(),
            two.host.len(),
            two.step,
            two.donor.as_ptr(),
            two.donor.len(),
            slots.as_mut_ptr(),
            out.as_mut_ptr(),
            out.len(),
            value,
            column,
            whose,
        )
    }
}

/// How many names, and how many bytes of code, a term that was read has.
#[derive(Default)]
pub struct Counts {
    pub names: usize,
    pub code: usize,
}

pub fn read_term(
    text: &[u8],
    datatypes: &[u8],
    memory: TermMemory,
    value: &mut usize,
    column: &mut usize,
    counts: &mut Counts,
) -> u8 {
    unsafe {
        skriduhol_read_term(
            text.as_ptr(),
            text.len(),
            datatypes.as_ptr(),
            datatypes.len(),
            memory.records.as_mut_ptr(),
            memory.records.len(),
            memory.names.as_mut_ptr(),
            memory.names.len(),
            memory.code.as_mut_ptr(),
            memory.code.len(),
            value,
            column,
            &mut counts.names,
            &mut counts.code,
        )
    }
}

pub fn read_term_length(
    text: &[u8],
    datatypes: &[u8],
    value: &mut usize,
    column: &mut usize,
    counts: &mut Counts,
) -> u8 {
    unsafe {
        skriduhol_read_term_length(
            text.as_ptr(),
            text.len(),
            datatypes.as_ptr(),
            datatypes.len(),
            value,
            column,
            &mut counts.names,
            &mut counts.code,
        )
    }
}

pub fn exercise(
    names: &[u8],
    n: usize,
    ordinal: usize,
    out: &mut [u8],
    value: &mut usize,
    column: &mut usize,
) -> u8 {
    unsafe {
        skriduhol_exercise(
            names.as_ptr(),
            names.len(),
            n,
            ordinal,
            out.as_mut_ptr(),
            out.len(),
            value,
            column,
        )
    }
}

pub fn restate_length(sheet: &[u8], given: &[u16; 5], value: &mut usize, column: &mut usize) -> u8 {
    unsafe { skriduhol_restate_length(sheet.as_ptr(), sheet.len(), given.as_ptr(), value, column) }
}

pub fn graft_length(two: Two, value: &mut usize, column: &mut usize, whose: &mut usize) -> u8 {
    unsafe {
        skriduhol_graft_length(
            two.host.as_ptr(),
            two.host.len(),
            two.step,
            two.donor.as_ptr(),
            two.donor.len(),
            value,
            column,
            whose,
        )
    }
}

pub fn exercise_length(
    names: &[u8],
    n: usize,
    ordinal: usize,
    value: &mut usize,
    column: &mut usize,
) -> u8 {
    unsafe { skriduhol_exercise_length(names.as_ptr(), names.len(), n, ordinal, value, column) }
}

pub fn name_index(
    sheet: &[u8],
    slots: &mut [u16; SLOT_COUNT],
    value: &mut usize,
    column: &mut usize,
) -> u8 {
    unsafe {
        skriduhol_name_index(
            sheet.as_ptr(),
            sheet.len(),
            slots.as_mut_ptr(),
            value,
            column,
        )
    }
}

pub fn find_name(
    sheet: &[u8],
    slots: &[u16; SLOT_COUNT],
    name: &[u8],
    value: &mut usize,
    column: &mut usize,
) -> u8 {
    unsafe {
        skriduhol_find_name(
            sheet.as_ptr(),
            sheet.len(),
            slots.as_ptr(),
            name.as_ptr(),
            name.len(),
            value,
            column,
        )
    }
}
