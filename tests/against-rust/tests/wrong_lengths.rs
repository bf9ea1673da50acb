//! Libraries that measure answers wrongly in one thing each: the comparison must find every one of them.
use against_rust::lengths::{compare, Library};
use oracle::{
    answer::{examine, Question},
    generate::Kind,
};
use std::sync::atomic::{AtomicUsize, Ordering::SeqCst};

const FAULTS: [&str; 9] = [
    "the length of the plain text for the strict one",
    "an atom is one number",
    "no datatypes",
    "lengths up to 1,024",
    "version 2 is measured as version 1",
    "version 4 is measured as version 3",
    "a refusal is a length of 0",
    "a refusal at place 0",
    "the column is left unset",
];

/// Which fault the library has now; none past the last.
static FAULT: AtomicUsize = AtomicUsize::new(usize::MAX);

fn has(fault: &str) -> bool {
    FAULTS.get(FAULT.load(SeqCst)) == Some(&fault)
}

/// The length by the oracle, but for the fault.
///
/// # Safety
/// The pointers are those of the C interface.
unsafe fn measured(
    (sheet, length): (*const u8, usize),
    question: Question,
    (value, column): (*mut usize, *mut usize),
) -> u8 {
    let sheet = std::slice::from_raw_parts(sheet, length);
    let examined = examine(sheet).expect("the oracle agrees with the Rust");
    let right = examined.answer(question, None).expect("the oracle agrees with the Rust");
    let list = matches!(question, Question::DatatypeList | Question::HandoutDatatypes(_));
    let said = right.map(|answer| match answer.length() {
        length if has("an atom is one number") && question == Question::AtomList => length / 2,
        _ if has("no datatypes") && list => 0,
        length if has("lengths up to 1,024") => length.min(1024),
        length => length,
    });
    let (number, said, drawn) = match said {
        Ok(length) => (0, length, 0),
        Err(_) if has("a refusal is a length of 0") => (0, 0, 0),
        Err(refusal) if has("a refusal at place 0") => (refusal.number, 0, refusal.column.into()),
        Err(refusal) => (refusal.number, refusal.place, refusal.column.into()),
    };
    *value = said;
    if !has("the column is left unset") {
        *column = drawn;
    }
    number
}

fn version(number: usize) -> usize {
    match number {
        2 if has("version 2 is measured as version 1") => 1,
        4 if has("version 4 is measured as version 3") => 3,
        _ => number,
    }
}

fn strict() -> Question {
    match has("the length of the plain text for the strict one") {
        true => Question::PlainText,
        false => Question::StrictText,
    }
}

macro_rules! of_sheet {
    ($name:ident, $question:expr) => {
        unsafe extern "C" fn $name(sheet: *const u8, length: usize, value: *mut usize, column: *mut usize) -> u8 {
            measured((sheet, length), $question, (value, column))
        }
    };
}

macro_rules! of_version {
    ($name:ident, $question:expr) => {
        unsafe extern "C" fn $name(
            sheet: *const u8,
            length: usize,
            number: usize,
            value: *mut usize,
            column: *mut usize,
        ) -> u8 {
            measured((sheet, length), $question(version(number)), (value, column))
        }
    };
}

of_sheet!(plain_text, Question::PlainText);
of_sheet!(strict_text, strict());
of_sheet!(atom_list, Question::AtomList);
of_sheet!(datatype_list, Question::DatatypeList);
of_version!(handout_plain, Question::HandoutPlain);
of_version!(handout_strict, Question::HandoutStrict);
of_version!(handout_datatypes, Question::HandoutDatatypes);

const LIBRARY: Library =
    Library { plain_text, strict_text, atom_list, datatype_list, handout_plain, handout_strict, handout_datatypes };

/// So many sheets of these kinds show every fault.
const COUNT: usize = 40;
const KINDS: [Kind; 3] = [Kind::Sound, Kind::Quantified, Kind::Damaged];

#[test]
fn every_wrong_library_is_found() {
    FAULT.store(usize::MAX, SeqCst);
    let asked = compare(&LIBRARY, &KINDS, 1, COUNT).expect("the oracle is right");
    assert!(asked.refused > 0 && asked.longest > 1024);
    for (number, fault) in FAULTS.into_iter().enumerate() {
        FAULT.store(number, SeqCst);
        assert!(compare(&LIBRARY, &KINDS, 1, COUNT).is_err(), "{fault}");
    }
}
