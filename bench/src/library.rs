//! Skriduhol through the wrapper in bindings/rust.
use oracle::{
    answer::{Operation, Question},
    generate::texts::Text,
    grafts::Graft,
    restate::Given,
};
use skriduhol::{GraftRefusal, Judged, ReadTerm, Refusal, Style, TermMemory, CODE_ROOM, NAME_ROOM, RECORD_ROOM};

/// The memory that is lent for answers.
pub struct Lent {
    pub bytes: Vec<u8>,
    pub numbers: Vec<u16>,
}

impl Lent {
    /// Room for the longest answers. Each page is written to, so that no operation is the first to touch one.
    pub fn new() -> Self {
        Lent { bytes: vec![0xa5; 96 << 20], numbers: vec![0xa5a5; 4 << 20] }
    }
}

/// The length of the answer, the count, or 1 for yes and 0 for no; or the refusal.
pub fn ask(question: Question, sheet: &[u8], lent: &mut Lent) -> Result<usize, Refusal> {
    match question {
        Question::PlainText => skriduhol::plain_text(sheet, &mut lent.bytes),
        Question::StrictText => skriduhol::strict_text(sheet, &mut lent.bytes),
        Question::AtomList => skriduhol::atom_list(sheet, &mut lent.numbers),
        Question::DatatypeList => skriduhol::datatype_list(sheet, &mut lent.numbers),
        Question::LabelCount => skriduhol::label_count(sheet),
        Question::Comparison(i, j) => skriduhol::compare(sheet, i, j).map(usize::from),
        Question::BoardOutput => {
            let board = lent.bytes.first_chunk_mut().expect("the board's room is lent");
            Ok(skriduhol::board_output(sheet, board))
        }
        Question::HandoutPlain(version) => skriduhol::handout(sheet, version, Style::Plain, &mut lent.bytes),
        Question::HandoutStrict(version) => skriduhol::handout(sheet, version, Style::Strict, &mut lent.bytes),
        Question::HandoutDatatypes(version) => skriduhol::handout_datatypes(sheet, version, &mut lent.numbers),
    }
}

/// The length of an answer that fills memory, found out without writing it, or the refusal; no other operation has one.
pub fn length(question: Question, sheet: &[u8]) -> Option<Result<usize, Refusal>> {
    Some(match question {
        Question::PlainText => skriduhol::plain_text_length(sheet),
        Question::StrictText => skriduhol::strict_text_length(sheet),
        Question::AtomList => skriduhol::atom_list_length(sheet),
        Question::DatatypeList => skriduhol::datatype_list_length(sheet),
        Question::HandoutPlain(version) => skriduhol::handout_length(sheet, version, Style::Plain),
        Question::HandoutStrict(version) => skriduhol::handout_length(sheet, version, Style::Strict),
        Question::HandoutDatatypes(version) => skriduhol::handout_datatypes_length(sheet, version),
        Question::LabelCount | Question::Comparison(..) | Question::BoardOutput => return None,
    })
}

/// The length of the code at an ordinal over three names with n of 3, or the refusal.
pub fn exercise(ordinal: usize, lent: &mut Lent) -> Result<usize, Refusal> {
    skriduhol::exercise(b"A\nB\nC", 3, ordinal, &mut lent.bytes)
}

/// Whether the sheet's term checks against a proposition from no hypotheses, or the refusal.
pub fn judge(sheet: &[u8], proposition: usize) -> Result<Judged, Refusal> {
    skriduhol::judge(sheet, &[], proposition)
}

/// How much of the lent memory the term of a text takes, or the refusal: its records are the first of the numbers, and its names and then
/// its code the first of the bytes.
pub fn read_term(Text { list, text }: &Text, lent: &mut Lent) -> Result<ReadTerm, Refusal> {
    let (names, code) = lent.bytes.split_at_mut(NAME_ROOM);
    let memory = TermMemory { records: &mut lent.numbers[..RECORD_ROOM], names, code: &mut code[..CODE_ROOM] };
    skriduhol::read_term(text, list, memory)
}

/// The length of the sheet with a restated conclusion, or the refusal.
pub fn restate(sheet: &[u8], given: Given, lent: &mut Lent) -> Result<usize, Refusal> {
    let slots = lent.numbers.first_chunk_mut().expect("the slots are lent");
    let given = skriduhol::Given { kind: given.kind, numbers: given.numbers, column: given.column };
    skriduhol::restate(sheet, given, slots, &mut lent.bytes)
}

/// The length of the merged sheet, or the refusal.
pub fn graft(asked: &Graft, lent: &mut Lent) -> Result<usize, GraftRefusal> {
    let slots = lent.numbers.first_chunk_mut().expect("the slots are lent");
    skriduhol::graft(&asked.host, asked.step, &asked.donor, slots, &mut lent.bytes)
}

/// The slots of the sheet's index, at the start of the lent numbers.
pub fn name_index(sheet: &[u8], lent: &mut Lent) -> Result<(), Refusal> {
    skriduhol::name_index(sheet, lent.numbers.first_chunk_mut().expect("the slots are lent"))
}

/// The number of a name by the slots that stand there.
pub fn find_name(sheet: &[u8], name: &[u8], lent: &mut Lent) -> Result<Option<usize>, Refusal> {
    skriduhol::find_name(sheet, lent.numbers.first_chunk().expect("the slots are lent"), name)
}

/// The question of each operation on a sheet of so many steps. The comparison is of the first step with the last, and the
/// handout is version 2.
pub fn question(operation: Operation, steps: usize) -> Question {
    match operation {
        Operation::PlainText => Question::PlainText,
        Operation::StrictText => Question::StrictText,
        Operation::AtomList => Question::AtomList,
        Operation::DatatypeList => Question::DatatypeList,
        Operation::LabelCount => Question::LabelCount,
        Operation::Comparison => Question::Comparison(0, steps.max(1) - 1),
        Operation::BoardOutput => Question::BoardOutput,
        Operation::HandoutPlain => Question::HandoutPlain(2),
        Operation::HandoutStrict => Question::HandoutStrict(2),
        Operation::HandoutDatatypes => Question::HandoutDatatypes(2),
    }
}
