//! The example sheets through the wrapper: answers, refusals, and what becomes of the lent memory.
use skriduhol::{
    atom_list, atom_list_length, board_output, compare, datatype_list, datatype_list_length,
    exercise, exercise_length, find_name, graft, graft_length, handout, handout_datatypes,
    handout_datatypes_length, handout_length, judge, label_count, name_index, plain_text,
    plain_text_length, read_term, read_term_length, restate, restate_length, strict_text,
    strict_text_length, Given, GraftRefusal, Hypothesis, Judged, ReadTerm, Refusal, Style,
    TermMemory, Whose, BOARD_ROOM, CODE_ROOM, FREE, LONGEST_EXERCISE, LONGEST_SHEET, LONGEST_TERM,
    NAME_ROOM, RECORD_NUMBERS, RECORD_ROOM, SLOT_COUNT,
};

const SMALLEST: &[u8] = include_bytes!("../../../examples/sheets/smallest.sheet");
const SECOND: &[u8] = include_bytes!("../../../examples/sheets/second_drawing.sheet");
const LABELLED: &[u8] = include_bytes!("../../../examples/sheets/labelled_function.sheet");
const CASE_AS_AN_ARGUMENT: &[u8] =
    include_bytes!("../../../examples/sheets/case_as_an_argument.sheet");
const CASE_WITH_AN_APPLIED_BRANCH: &[u8] =
    include_bytes!("../../../examples/sheets/case_with_an_applied_branch.sheet");
const SECOND_HANDOUT: &[u8] = include_bytes!("../../../examples/sheets/second_handout.sheet");
const REFUSED: &[u8] = include_bytes!("../../../examples/sheets/refused.sheet");

const SECOND_TEXT: &str = "atom A;\natom B;\n\n\nfn u => inl u";

/// A byte that no text ends in, to see what was written.
const UNTOUCHED: u8 = 0xa5;

/// The plain text in a room of so many bytes, with the memory as it stands after.
fn text_in(room: usize, sheet: &[u8]) -> (Result<usize, Refusal>, Vec<u8>) {
    let mut out = vec![UNTOUCHED; room];
    let answer = plain_text(sheet, &mut out);
    (answer, out)
}

fn text_of(sheet: &[u8]) -> Result<String, Refusal> {
    let (answer, mut out) = text_in(BOARD_ROOM, sheet);
    out.truncate(answer?);
    Ok(String::from_utf8(out).expect("a text is UTF-8"))
}

fn strict_text_of(sheet: &[u8]) -> Result<String, Refusal> {
    let mut out = vec![UNTOUCHED; BOARD_ROOM];
    let length = strict_text(sheet, &mut out)?;
    out.truncate(length);
    Ok(String::from_utf8(out).expect("a text is UTF-8"))
}

fn refusal<T>(number: u8, place: usize) -> Result<T, Refusal> {
    refusal_of_step(number, place, 0)
}

fn refusal_of_step<T>(number: u8, place: usize, column: usize) -> Result<T, Refusal> {
    Err(Refusal {
        number,
        place,
        column,
    })
}

#[test]
fn texts() {
    assert_eq!(text_of(SMALLEST), Ok("\n\n\n()".into()));
    assert_eq!(text_of(SECOND), Ok(SECOND_TEXT.into()));
    assert_eq!(
        text_of(LABELLED),
        Ok("atom A;\n\n\n(fn u: A => u) v".into())
    );
    assert_eq!(text_of(REFUSED), refusal_of_step(14, 1, 3));
}

#[test]
fn strict_text_tells_apart_what_plain_text_does_not() {
    let plain = "\n\n\nf case h of inl x => a, inr y => b c";
    assert_eq!(text_of(CASE_AS_AN_ARGUMENT), Ok(plain.into()));
    assert_eq!(text_of(CASE_WITH_AN_APPLIED_BRANCH), Ok(plain.into()));
    assert_eq!(
        strict_text_of(CASE_AS_AN_ARGUMENT),
        Ok("\n\n\nf (case h of inl x => a, inr y => b) c".into())
    );
    assert_eq!(
        strict_text_of(CASE_WITH_AN_APPLIED_BRANCH),
        Ok("\n\n\nf (case h of inl x => a, inr y => b c)".into())
    );
}

#[test]
fn lengths_are_those_of_the_answers() {
    for sheet in [
        SMALLEST,
        SECOND,
        LABELLED,
        CASE_AS_AN_ARGUMENT,
        SECOND_HANDOUT,
        REFUSED,
        &[],
    ] {
        assert_eq!(
            plain_text_length(sheet),
            text_of(sheet).map(|text| text.len())
        );
        assert_eq!(
            strict_text_length(sheet),
            strict_text_of(sheet).map(|text| text.len())
        );
        assert_eq!(atom_list_length(sheet), atom_list(sheet, &mut [0; 64]));
        assert_eq!(
            datatype_list_length(sheet),
            datatype_list(sheet, &mut [0; 64])
        );
        for version in 0..5 {
            for style in [Style::Plain, Style::Strict] {
                let text = handout_of(sheet, version, style);
                assert_eq!(
                    handout_length(sheet, version, style),
                    text.map(|text| text.len())
                );
            }
            let list = datatypes_of(sheet, version);
            assert_eq!(
                handout_datatypes_length(sheet, version),
                list.map(|list| list.len())
            );
        }
    }
    assert_eq!(plain_text_length(SECOND), Ok(SECOND_TEXT.len()));
    assert_eq!(plain_text_length(REFUSED), refusal_of_step(14, 1, 3));
    assert_eq!(handout_length(REFUSED, 4, Style::Plain), refusal(21, 0));
}

/// In the room that the length asks for the answer is not refused, and in one element less it is.
#[test]
fn the_length_is_the_least_room() {
    let length = plain_text_length(SECOND).expect("a sheet");
    assert_eq!(text_in(length, SECOND).0, Ok(length));
    assert_eq!(text_in(length - 1, SECOND).0, refusal(16, 0));
    let length = handout_datatypes_length(SECOND_HANDOUT, 2).expect("a sheet");
    let list = |room| handout_datatypes(SECOND_HANDOUT, 2, &mut vec![0; room]);
    assert_eq!(list(length), Ok(length));
    assert_eq!(list(length - 1), refusal(16, 0));
}

fn handout_of(sheet: &[u8], version: usize, style: Style) -> Result<String, Refusal> {
    let mut out = vec![UNTOUCHED; BOARD_ROOM];
    let length = handout(sheet, version, style, &mut out)?;
    out.truncate(length);
    Ok(String::from_utf8(out).expect("a text is UTF-8"))
}

fn datatypes_of(sheet: &[u8], version: usize) -> Result<Vec<u16>, Refusal> {
    let mut out = vec![7; 64];
    let length = handout_datatypes(sheet, version, &mut out)?;
    out.truncate(length);
    Ok(out)
}

#[test]
fn the_versions_of_the_handout() {
    let term = "fn v => (fn x: T => sorry: ∀y:U. ∃z:T. P(y, z)) a";
    let bracketed = "fn v => (fn x: T => (sorry: ∀y:U. ∃z:T. P(y, z))) a";
    let first = "atom P(2);\ndatatype T;\ndatatype V;\ndatatype U;\n\n";
    let second = "datatype U;\ndatatype T;\ndatatype V;\natom P(2);\n\n";
    let third = "datatype T;\ndatatype U;\ndatatype V;\natom P(2);\n\n";
    for (version, heading) in [(1, first), (2, second), (3, third)] {
        let text = |style| handout_of(SECOND_HANDOUT, version, style);
        assert_eq!(text(Style::Plain), Ok(format!("{heading}{term}")));
        assert_eq!(text(Style::Strict), Ok(format!("{heading}{bracketed}")));
    }
    assert_eq!(text_of(SECOND_HANDOUT), Ok(format!("{first}{term}")));
    assert_eq!(
        strict_text_of(SECOND_HANDOUT),
        Ok(format!("{first}{bracketed}"))
    );
    assert_eq!(datatypes_of(SECOND_HANDOUT, 1), Ok(vec![5]));
    assert_eq!(datatypes_of(SECOND_HANDOUT, 2), Ok(vec![3, 5, 5]));
    assert_eq!(datatypes_of(SECOND_HANDOUT, 3), Ok(vec![3, 5, 5]));
    assert_eq!(
        handout_of(REFUSED, 2, Style::Plain),
        refusal_of_step(14, 1, 3)
    );
    assert_eq!(
        handout(SECOND, 2, Style::Plain, &mut [0; 30]),
        refusal(16, 0)
    );
}

#[test]
fn a_number_that_is_no_version_is_refused_first() {
    for version in [0, 4, 257, 65_537, (1 << 32) + 1, usize::MAX] {
        for sheet in [SECOND_HANDOUT, SMALLEST, REFUSED, &[]] {
            for style in [Style::Plain, Style::Strict] {
                let mut out = [UNTOUCHED; 8];
                assert_eq!(handout(sheet, version, style, &mut out), refusal(21, 0));
                assert_eq!(out, [UNTOUCHED; 8]);
            }
            assert_eq!(handout_datatypes(sheet, version, &mut []), refusal(21, 0));
        }
    }
}

#[test]
fn the_terms_of_sheets_are_judged() {
    let [yes, no] = [Ok(Judged::Yes), Ok(Judged::No { node: 0 })];
    assert_eq!(judge(SECOND, &[], 0), yes);
    // fn u => inl u against A
    assert_eq!(judge(SECOND, &[], 1), no);
    assert_eq!(judge(SMALLEST, &Vec::new(), 0), yes);
    // (fn u: A => u) v: the names are A, u and v, the propositions A and A ⊃ A
    let of = |name, proposition| Hypothesis { name, proposition };
    assert_eq!(judge(LABELLED, &[], 0), Ok(Judged::No { node: 3 }));
    assert_eq!(judge(LABELLED, &[of(2, 0)], 0), yes);
    assert_eq!(judge(LABELLED, &[of(2, 0)], 1), no);
    assert_eq!(judge(LABELLED, &[of(2, 1), of(2, 0)], 0), yes);
    assert_eq!(
        judge(LABELLED, &[of(2, 0), of(2, 1)], 0),
        Ok(Judged::No { node: 3 })
    );
}

#[test]
fn what_is_not_judged_is_refused() {
    let of = |name, proposition| Hypothesis { name, proposition };
    assert_eq!(judge(&[], &[], 0), refusal(1, 0));
    assert_eq!(judge(REFUSED, &[of(9, 9)], 9), refusal_of_step(14, 1, 3));
    assert_eq!(judge(BOUND_OBJECT, &[], 2), refusal(31, 0));
    assert_eq!(judge(BOUND_OBJECT, &[], usize::MAX), refusal(31, 0));
    assert_eq!(judge(BOUND_OBJECT, &[of(0, 2)], 0), refusal(31, 0));
    assert_eq!(judge(BOUND_OBJECT, &[of(4, 0)], 0), refusal(31, 0));
    assert_eq!(judge(BOUND_OBJECT, &[of(3, 1)], 0), refusal(22, 0));
}

const BOUND_OBJECT: &[u8] = include_bytes!("../../../examples/sheets/bound_object.sheet");

/// What becomes of memory and slots where a sheet is restated in a room of so many bytes.
fn restate_in(room: usize, given: Given) -> (Result<usize, Refusal>, Vec<u8>, [u16; 1024]) {
    let (mut out, mut slots) = (vec![UNTOUCHED; room], [7; 1024]);
    let answer = restate(BOUND_OBJECT, given, &mut slots, &mut out);
    (answer, out, slots)
}

#[test]
fn a_restated_sheet_prints_as_before() {
    let given = Given {
        kind: 0,
        numbers: [1, 0, 0],
        column: 7,
    };
    let length = BOUND_OBJECT.len() + 20;
    let (answer, out, slots) = restate_in(length + 3, given);
    assert_eq!(answer, Ok(length));
    assert_eq!(out[length..], [UNTOUCHED; 3]);
    assert_eq!(slots.iter().filter(|slot| **slot != 65535).count(), 4);
    let (mut old, mut new) = (vec![0; 100], vec![0; 100]);
    assert_eq!(
        plain_text(&out[..length], &mut new),
        plain_text(BOUND_OBJECT, &mut old)
    );
    assert_eq!(new, old);
    assert_eq!(compare(&out[..length], 0, 1), Ok(true));
    let refused = |room, given, number| {
        let untouched = (refusal(number, 0), vec![UNTOUCHED; room], [7; 1024]);
        assert_eq!(restate_in(room, given), untouched);
    };
    assert_eq!(restate_length(BOUND_OBJECT, given), Ok(length));
    let late = Given { kind: 1, ..given };
    assert_eq!(restate_length(BOUND_OBJECT, late), refusal(25, 0));
    refused(length - 1, given, 16);
    refused(
        length,
        Given {
            column: 4096,
            ..given
        },
        23,
    );
    refused(length, late, 25);
}

const OPEN_STEP: &[u8] = include_bytes!("../../../examples/sheets/open_step.sheet");
const SWAPPED: &[u8] = include_bytes!("../../../examples/sheets/disjunction_swapped.sheet");

/// What becomes of memory and slots where a donor is grafted in a room of so many bytes.
fn graft_in(
    room: usize,
    host: &[u8],
    step: usize,
    donor: &[u8],
) -> (Result<usize, GraftRefusal>, Vec<u8>, [u16; SLOT_COUNT]) {
    let (mut out, mut slots) = (vec![UNTOUCHED; room], [7; SLOT_COUNT]);
    let answer = graft(host, step, donor, &mut slots, &mut out);
    (answer, out, slots)
}

#[test]
fn a_donor_replaces_a_sorry() {
    assert_eq!(
        text_of(OPEN_STEP),
        Ok("atom A;\natom B;\natom C;\n\n\nfn h => (sorry: A ∨ B ⊃ B ∨ A) (fst h)".into())
    );
    let (answer, out, slots) = graft_in(LONGEST_SHEET, OPEN_STEP, 0, SWAPPED);
    let length = answer.expect("it is grafted");
    let (merged, rest) = out.split_at(length);
    assert!(rest.iter().all(|byte| *byte == UNTOUCHED));
    assert_eq!(
        text_of(merged),
        Ok("atom B;\natom A;\natom C;\n\n\nfn h => (fn u: A ∨ B => \
            case u of inl a => inr a: B ∨ A, inr b => inl b: B ∨ A) (fst h)"
            .into())
    );
    let mut own = [0; SLOT_COUNT];
    assert_eq!(name_index(merged, &mut own), Ok(()));
    assert_eq!(slots, own);
    // A, B, C and h are the host's, and u, a and b the donor's
    let found =
        ["A", "B", "C", "h", "u", "a", "b"].map(|name| find_name(merged, &slots, name.as_bytes()));
    assert_eq!(found, [0, 1, 2, 3, 4, 5, 6].map(|number| Ok(Some(number))));
    assert_eq!(graft_in(length, OPEN_STEP, 0, SWAPPED).0, Ok(length));
    assert_eq!(graft_length(OPEN_STEP, 0, SWAPPED), Ok(length));
}

#[test]
fn a_refused_graft_says_whose_it_is_and_leaves_the_memory() {
    let refused = |room, host: &[u8], step, donor: &[u8], whose, refusal| {
        let untouched = (
            Err(GraftRefusal { whose, refusal }),
            vec![UNTOUCHED; room],
            [7; SLOT_COUNT],
        );
        assert_eq!(graft_in(room, host, step, donor), untouched);
        if refusal.number != 16 {
            assert_eq!(graft_length(host, step, donor), untouched.0);
        }
    };
    let of = |number, place, column| Refusal {
        number,
        place,
        column,
    };
    let length = graft_in(LONGEST_SHEET, OPEN_STEP, 0, SWAPPED)
        .0
        .expect("it is grafted");
    refused(
        length - 1,
        OPEN_STEP,
        0,
        SWAPPED,
        Whose::Neither,
        of(16, 0, 0),
    );
    refused(9, OPEN_STEP, 1, SWAPPED, Whose::Neither, of(26, 0, 0));
    refused(
        9,
        OPEN_STEP,
        usize::MAX,
        SWAPPED,
        Whose::Neither,
        of(26, 0, 0),
    );
    refused(9, OPEN_STEP, 0, SECOND, Whose::Neither, of(27, 0, 0));
    let mut wide = OPEN_STEP.to_vec();
    // the last byte of step 4's column, behind 12 bytes, 4 names and 5 propositions
    wide[12 + 4 * 9 + 20 * 5 - 1] = 16;
    refused(9, &wide, 0, &[], Whose::Host, of(9, 4, 4098));
    refused(9, OPEN_STEP, 9, &wide, Whose::Donor, of(9, 4, 4098));
    refused(0, &[], 0, &[], Whose::Host, of(1, 0, 0));
    refused(0, OPEN_STEP, 0, &[], Whose::Donor, of(1, 0, 0));
    let said = |whose| {
        let refusal = of(9, 4, 4098);
        GraftRefusal { whose, refusal }.to_string()
    };
    assert_eq!(
        said(Whose::Donor),
        "refused 9 at 4 column 4098 of the donor"
    );
    assert_eq!(said(Whose::Host), "refused 9 at 4 column 4098 of the host");
    assert_eq!(said(Whose::Neither), "refused 9 at 4 column 4098");
}

/// What becomes of the memory where a text is read in a room of so many numbers of records, bytes of names and bytes of code.
struct Read {
    answer: Result<ReadTerm, Refusal>,
    records: Vec<u16>,
    names: Vec<u8>,
    code: Vec<u8>,
}

fn read_in(room: [usize; 3], text: &str, datatypes: &str) -> Read {
    let mut records = vec![7; room[0]];
    let [mut names, mut code] = [room[1], room[2]].map(|room| vec![UNTOUCHED; room]);
    let memory = TermMemory {
        records: &mut records,
        names: &mut names,
        code: &mut code,
    };
    let answer = read_term(text.as_bytes(), datatypes.as_bytes(), memory);
    Read {
        answer,
        records,
        names,
        code,
    }
}

#[test]
fn a_text_is_read() {
    let read = read_in([21, 12, 4], "fn x: T => (x: A)", "U\nT");
    let (nodes, names, code) = (3, 3, 4);
    assert_eq!(read.answer, Ok(ReadTerm { nodes, names, code }));
    assert_eq!(read_term_length(b"fn x: T => (x: A)", b"U\nT"), read.answer);
    assert_eq!(
        read_term_length(b"fn x: T => (x: A)", b"in"),
        refusal(20, 0)
    );
    // x, then x: A, whose label stands at offset 0, then the function that binds x, with the datatype T for a label
    let (name, ascription) = ([0; 7], [11, 0, 0, 1, 0, 0, 1]);
    let function = [4, 1, 0, 2, 1, 0, 2];
    assert_eq!(read.records, [name, ascription, function].concat());
    assert_eq!(read.names, [3, 0, 1, 0, 6, 0, 1, 0, 15, 0, 1, 0]);
    assert_eq!(read.code, [5, 2, 0, 0]);
}

#[test]
fn a_byte_between_two_labels_is_untouched() {
    let read = read_in([50, 20, 12], "(x: ⊤, y: A)", "");
    let (nodes, names, code) = (5, 3, 6);
    assert_eq!(read.answer, Ok(ReadTerm { nodes, names, code }));
    assert_eq!(read.code[..6], [0, UNTOUCHED, 5, 2, 0, 0]);
    assert_eq!(read.code[6..], [UNTOUCHED; 6]);
    assert_eq!(read.records[28..35], [1, 1, 3, 0, 0, 0, 2]);
    assert_eq!(read.records[35..], [7; 15]);
}

#[test]
fn a_text_that_is_not_read_leaves_the_memory() {
    let untouched = |room: [usize; 3], text: &str, datatypes: &str, number| {
        let read = read_in(room, text, datatypes);
        assert_eq!(read.answer, refusal(number, 0), "{text}");
        assert_eq!(read.records, vec![7; room[0]]);
        assert_eq!(read.names, vec![UNTOUCHED; room[1]]);
        assert_eq!(read.code, vec![UNTOUCHED; room[2]]);
    };
    let enough = [RECORD_ROOM, NAME_ROOM, CODE_ROOM];
    for text in ["", "in", "f (a)", "fn x => x: A", "(x,y)", "x: A ⊃ ⊥"] {
        untouched(enough, text, "", 20);
    }
    untouched(enough, &"x".repeat(LONGEST_TERM + 1), "", 20);
    for datatypes in ["T\n", "in", "1", "T U"] {
        untouched(enough, "x", datatypes, 20);
    }
    let text = "fn x: T => (x: A)";
    for room in [[20, 12, 4], [21, 11, 4], [21, 12, 3], [0, 0, 0]] {
        untouched(room, text, "T", 16);
    }
    assert!(read_in([RECORD_NUMBERS, 4, 0], "x", "").answer.is_ok());
}

#[test]
fn the_strict_text_of_a_sheet_is_read_back() {
    let text = strict_text_of(SECOND_HANDOUT).expect("the sheet has a text");
    let (_, term) = text
        .rsplit_once('\n')
        .expect("declarations stand before the term");
    let enough = [RECORD_ROOM, NAME_ROOM, CODE_ROOM];
    let read = read_in(enough, term, "T");
    // fn, an application, fn, the ascription, sorry and a
    assert_eq!(read.answer.map(|read| read.nodes), Ok(6));
    assert_eq!(read.records[5 * RECORD_NUMBERS..][..2], [4, 4]);
}

/// The code of an exercise in a room of so many bytes.
fn exercise_in(
    room: usize,
    names: &str,
    n: usize,
    ordinal: usize,
) -> (Result<usize, Refusal>, Vec<u8>) {
    let mut out = vec![UNTOUCHED; room];
    let answer = exercise(names.as_bytes(), n, ordinal, &mut out);
    (answer, out)
}

#[test]
fn exercises() {
    let code = |names, n, ordinal| {
        let (answer, mut out) = exercise_in(LONGEST_EXERCISE, names, n, ordinal);
        assert_eq!(exercise_length(names.as_bytes(), n, ordinal), answer);
        out.truncate(answer?);
        Ok(out)
    };
    assert_eq!(code("", 0, 0), Ok(vec![0]));
    assert_eq!(code("", 0, 1), Ok(vec![1]));
    assert_eq!(code("", 0, 2), refusal(30, 0));
    assert_eq!(code("A\nB", 2, 3), Ok(vec![5, 1, 0, 0]));
    assert_eq!(code("A\nB", 2, 5), Ok(vec![2, 0, 1]));
    assert_eq!(code("A\nB", 2, 8), Ok(vec![2, 1, 0]));
    assert_eq!(code("A\nB", 2, 244), Ok(vec![2, 2, 0, 0, 0]));
    assert_eq!(
        code("sorry\nfn\nin", 3, 86_704),
        Ok(vec![
            4, 4, 4, 5, 2, 0, 0, 5, 2, 0, 0, 5, 2, 0, 0, 5, 2, 0, 0
        ])
    );
    assert_eq!(code("A\nB\nC", 3, 86_705), refusal(30, 0));
    for (names, n) in [
        ("A\nB\nC\nD", 0),
        ("A\nB\nA", 0),
        ("A\n", 0),
        ("1A", 0),
        ("A", 4),
    ] {
        assert_eq!(code(names, n, usize::MAX), refusal(29, 0));
    }
}

#[test]
fn memory_past_an_exercise_and_under_its_refusal_is_untouched() {
    assert_eq!(
        exercise_in(3, "A", 0, 2),
        (refusal(16, 0), vec![UNTOUCHED; 3])
    );
    assert_eq!(exercise_in(4, "A", 0, 2), (Ok(4), vec![5, 0, 0, 0]));
    assert_eq!(
        exercise_in(6, "A", 0, 2),
        (Ok(4), vec![5, 0, 0, 0, UNTOUCHED, UNTOUCHED])
    );
    assert_eq!(
        exercise_in(6, "A\nA", 0, 2),
        (refusal(29, 0), vec![UNTOUCHED; 6])
    );
    assert_eq!(exercise_in(0, "", 0, 0), (refusal(16, 0), vec![]));
}

#[test]
fn names_are_found_by_their_index() {
    let mut slots = [7; SLOT_COUNT];
    assert_eq!(name_index(SECOND, &mut slots), Ok(()));
    let held: Vec<(usize, u16)> = (0..).zip(slots).filter(|(_, held)| *held != FREE).collect();
    // the start slot of one byte is that byte
    assert_eq!(held, [(65, 0), (66, 1), (117, 2)]);
    let found = |name: &str| find_name(SECOND, &slots, name.as_bytes());
    assert_eq!(
        [found("A"), found("B"), found("u")],
        [0, 1, 2].map(|i| Ok(Some(i)))
    );
    assert_eq!([found("AA"), found("C"), found("")], [Ok(None); 3]);
    assert_eq!(find_name(SECOND, &[1; SLOT_COUNT], b"B"), Ok(Some(1)));
    assert_eq!(find_name(SECOND, &[1; SLOT_COUNT], b"A"), Ok(None));
}

#[test]
fn slots_under_a_refusal_are_untouched() {
    let mut slots = [7; SLOT_COUNT];
    assert_eq!(
        name_index(&SECOND[..SECOND.len() - 1], &mut slots),
        refusal(3, 0)
    );
    assert_eq!(slots, [7; SLOT_COUNT]);
    assert_eq!(find_name(&SECOND[..11], &slots, b"A"), refusal(1, 0));
}

#[test]
fn any_bytes_get_an_answer() {
    assert_eq!(text_of(&[]), refusal(1, 0));
    assert_eq!(text_of(&[0; 12]), refusal(2, 0));
    assert_eq!(text_of(&SMALLEST[..36]), refusal(3, 0));
    assert_eq!(text_of(&[0xff; LONGEST_SHEET + 1]), refusal(2, 0));
}

/// An empty slice of Rust has a pointer that is not null and is aligned, as the functions ask.
#[test]
fn empty_slices_get_an_answer() {
    assert_eq!(plain_text(&[], &mut []), refusal(1, 0));
    assert_eq!(strict_text(&[], &mut []), refusal(1, 0));
    assert_eq!(atom_list(&Vec::new(), &mut []), refusal(1, 0));
    assert_eq!(datatype_list(&[], &mut Vec::new()), refusal(1, 0));
    assert_eq!(label_count(&Vec::new()), refusal(1, 0));
    assert_eq!(compare(&[], 0, 0), refusal(1, 0));
    assert_eq!(strict_text(SECOND, &mut Vec::new()), refusal(16, 0));
    assert_eq!(atom_list(LABELLED, &mut Vec::new()), refusal(16, 0));
    assert_eq!(datatype_list(LABELLED, &mut Vec::new()), Ok(0));
    let mut out = Box::new([UNTOUCHED; BOARD_ROOM]);
    assert_eq!(board_output(&[], &mut out), 15);
    assert_eq!(&out[..15], b"refused 1 at 0\n");
}

#[test]
fn memory_past_the_answer_and_under_a_refusal_is_untouched() {
    assert_eq!(text_in(30, SECOND), (refusal(16, 0), vec![UNTOUCHED; 30]));
    assert_eq!(text_in(31, SECOND), (Ok(31), SECOND_TEXT.into()));
    let past = [SECOND_TEXT.as_bytes(), &[UNTOUCHED; 2]].concat();
    assert_eq!(text_in(33, SECOND), (Ok(31), past));
    assert_eq!(text_in(0, SECOND), (refusal(16, 0), vec![]));
}

#[test]
fn the_other_operations() {
    let mut bytes = vec![UNTOUCHED; 64];
    assert_eq!(strict_text(SECOND, &mut bytes), Ok(31));
    let mut numbers = [7u16; 4];
    assert_eq!(atom_list(LABELLED, &mut numbers), Ok(2));
    assert_eq!(numbers, [0, 0, 7, 7]);
    assert_eq!(atom_list(LABELLED, &mut [0; 1]), refusal(16, 0));
    assert_eq!(datatype_list(LABELLED, &mut numbers), Ok(0));
    assert_eq!(label_count(LABELLED), Ok(1));
    assert_eq!(label_count(REFUSED), refusal_of_step(14, 1, 3));
    assert_eq!(compare(LABELLED, 0, 2), Ok(true));
    assert_eq!(compare(LABELLED, 0, 1), Ok(false));
    assert_eq!(compare(LABELLED, 0, 4), refusal(17, 0));
}

#[test]
fn the_board_prints_a_text_or_the_refusals_line() {
    let mut out = Box::new([UNTOUCHED; BOARD_ROOM]);
    assert_eq!(board_output(REFUSED, &mut out), 25);
    assert_eq!(&out[..25], b"refused 14 at 1 column 3\n");
    assert_eq!(out[25], UNTOUCHED);
    assert_eq!(board_output(SECOND, &mut out), 31);
}

#[test]
fn a_refusal_is_displayed_in_the_boards_words() {
    let said = |number, place, column| {
        let refusal = Refusal {
            number,
            place,
            column,
        };
        refusal.to_string()
    };
    assert_eq!(said(8, 2, 0), "refused 8 at 2");
    assert_eq!(said(9, 2, 4096), "refused 9 at 2 column 4096");
    assert_eq!(said(15, 2, 0), "refused 15 at 2 column 0");
    assert_eq!(said(16, 0, 0), "refused 16 at 0");
}
