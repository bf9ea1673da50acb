//! Reading and judging as callers in C have them, for the comparison. Each is behind a feature of its own until the library has it.
#[cfg(feature = "judge")]
pub mod judging {
    use crate::judgements::{Library, Told};
    use oracle::{generate::asked::Asked, judging::Verdict};

    extern "C" {
        fn skriduhol_judge(
            sheet: *const u8,
            sheet_length: usize,
            hypotheses: *const u16,
            hypothesis_numbers: usize,
            proposition: usize,
            value: *mut usize,
            column: *mut usize,
            node: *mut usize,
        ) -> u8;
        #[cfg(feature = "judge_text")]
        fn skriduhol_judge_text(
            sheet: *const u8,
            sheet_length: usize,
            datatypes: *const u8,
            datatypes_length: usize,
            text: *const u8,
            text_length: usize,
            hypotheses: *const u16,
            hypothesis_numbers: usize,
            proposition: usize,
            value: *mut usize,
            column: *mut usize,
            node: *mut usize,
        ) -> u8;
    }

    /// A value, column or node that no call can mean, to see that it is overwritten.
    const UNSAID: usize = usize::MAX / 3;

    fn judge(asked: &Asked) -> Told {
        let Asked { sheet, read, hypotheses, prop } = asked;
        let (mut value, mut column, mut node) = (UNSAID, UNSAID, UNSAID);
        let (hypotheses, count) = (hypotheses.as_ptr(), hypotheses.len());
        let told: [*mut usize; 3] = [&mut value, &mut column, &mut node];
        let [said, drawn, stopped] = told;
        // SAFETY: all that is given and the three numbers outlive the calls.
        let number = unsafe {
            match read {
                None => skriduhol_judge(sheet.as_ptr(), sheet.len(), hypotheses, count, *prop, said, drawn, stopped),
                #[cfg(feature = "judge_text")]
                Some(beside) => skriduhol_judge_text(
                    sheet.as_ptr(),
                    sheet.len(),
                    beside.list.as_ptr(),
                    beside.list.len(),
                    beside.text.as_ptr(),
                    beside.text.len(),
                    hypotheses,
                    count,
                    *prop,
                    said,
                    drawn,
                    stopped,
                ),
                #[cfg(not(feature = "judge_text"))]
                Some(_) => unreachable!("no term beside a sheet is asked for"),
            }
        };
        let verdict = match (number, value, node) {
            (0, 1, 0) => Some(Verdict::Yes),
            (0, 0, node) => Some(Verdict::No(node)),
            _ => None,
        };
        // A refusal has no node: another number in its place is no place either.
        let place = match (number, node) {
            (0, _) => 0,
            (_, 0) => value,
            _ => UNSAID,
        };
        Told { number, verdict, place, column }
    }

    pub const LIBRARY: Library = Library { judge, beside: cfg!(feature = "judge_text") };
}

#[cfg(feature = "read_term")]
pub mod reading {
    use crate::readings::{Lent, Library, Told};

    extern "C" {
        fn skriduhol_read_term(
            text: *const u8,
            text_length: usize,
            datatypes: *const u8,
            datatypes_length: usize,
            records: *mut u16,
            records_room: usize,
            names: *mut u8,
            names_room: usize,
            code: *mut u8,
            code_room: usize,
            value: *mut usize,
            column: *mut usize,
            name_count: *mut usize,
            code_length: *mut usize,
        ) -> u8;
    }

    /// A number that no call can mean, to see that it is overwritten.
    const UNSAID: usize = usize::MAX / 3;

    unsafe fn read_term(lent: Lent) -> Told {
        let Lent { list, text, records, names, code, room } = lent;
        let (mut values, mut column) = ([UNSAID; 3], UNSAID);
        let [nodes, name_count, code_length] = &mut values;
        let number = skriduhol_read_term(
            text.as_ptr(),
            text.len(),
            list.as_ptr(),
            list.len(),
            records,
            room.records,
            names,
            room.names,
            code,
            room.code,
            nodes,
            &mut column,
            name_count,
            code_length,
        );
        Told { number, values, column }
    }

    pub const LIBRARY: Library = Library { read_term };
}
