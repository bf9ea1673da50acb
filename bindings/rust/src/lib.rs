//! The proved library behind proof boards, for Rust: a sheet's text, its lists, their lengths, its label count, the comparison of
//! two conclusions, the judgement of its term, restated conclusions, grafts of one sheet into another, terms that are read from
//! their strict text, exercises, and the index of a sheet's names. Every function answers for any bytes. A refusal leaves the lent
//! memory as it was, save that `board_output` then writes the refusal's line.
#![deny(unsafe_code)]

mod c;

use std::fmt;

/// What the board lends, in bytes.
pub const BOARD_ROOM: usize = 65_536;

/// The longest sheet, in bytes. A reader needs one byte more, to see that an input is longer.
pub const LONGEST_SHEET: usize = 40_972;

/// The longest code of an exercise, in bytes: three connectives and four names.
pub const LONGEST_EXERCISE: usize = 19;

/// The longest text of a term that is read, in bytes.
pub const LONGEST_TERM: usize = 65_536;

/// The numbers in the record of a node.
pub const RECORD_NUMBERS: usize = 7;

/// How many numbers of records, bytes of names and bytes of code are enough for every term that is read.
pub const RECORD_ROOM: usize = 14_336;
pub const NAME_ROOM: usize = 2048;
pub const CODE_ROOM: usize = 131_072;

/// The slots of an index of names.
pub const SLOT_COUNT: usize = 1024;

/// What a free slot holds.
pub const FREE: u16 = 65_535;

/// A refusal: its number, its place, and the grid column of the step that 9 to 15 name, for any other 0.
/// `include/skriduhol.h` lists them.
#[derive(Clone, Copy, Debug, PartialEq, Eq)]
pub struct Refusal {
    pub number: u8,
    pub place: usize,
    pub column: usize,
}

impl fmt::Display for Refusal {
    fn fmt(&self, f: &mut fmt::Formatter) -> fmt::Result {
        write!(f, "refused {} at {}", self.number, self.place)?;
        if (9..=15).contains(&self.number) {
            write!(f, " column {}", self.column)?;
        }
        Ok(())
    }
}

impl std::error::Error for Refusal {}

/// How a text is asked for.
#[derive(Clone, Copy, Debug, PartialEq, Eq)]
pub enum Style {
    Plain,
    Strict,
}

/// The plain text, at the start of `out`; its length in bytes.
pub fn plain_text(sheet: &[u8], out: &mut [u8]) -> Result<usize, Refusal> {
    asked(|value, column| c::plain_text(sheet, out, value, column))
}

/// The strict text, at the start of `out`; its length in bytes. It has the plain text's brackets, and others around a case or
/// let on either side of an application, and around an ascription within a function, a case or a let.
pub fn strict_text(sheet: &[u8], out: &mut [u8]) -> Result<usize, Refusal> {
    asked(|value, column| c::strict_text(sheet, out, value, column))
}

/// The atom list, at the start of `out`: the number of a name and a parameter count for each atom; its length in numbers.
pub fn atom_list(sheet: &[u8], out: &mut [u16]) -> Result<usize, Refusal> {
    asked(|value, column| c::atom_list(sheet, out, value, column))
}

/// The datatype list, at the start of `out`: the number of a name for each datatype that is a label; its length in numbers.
pub fn datatype_list(sheet: &[u8], out: &mut [u16]) -> Result<usize, Refusal> {
    asked(|value, column| c::datatype_list(sheet, out, value, column))
}

/// The text of a version of the handout, at the start of `out`; its length in bytes. Version 1 is `plain_text` and
/// `strict_text`. Version 2 has the datatype declarations before the atoms, and declares the datatypes of its own list. Version 3
/// is version 2 with its declarations sorted, by name bytes, a name before its own extensions, then by parameter count.
pub fn handout(
    sheet: &[u8],
    version: usize,
    style: Style,
    out: &mut [u8],
) -> Result<usize, Refusal> {
    let of_style = match style {
        Style::Plain => c::handout_plain,
        Style::Strict => c::handout_strict,
    };
    asked(|value, column| of_style(sheet, version, out, value, column))
}

/// The datatype list of a version of the handout, at the start of `out`; its length in numbers. Version 1 is `datatype_list`.
/// Version 2 has every datatype of every label, those within a proposition too, and version 3 the same.
pub fn handout_datatypes(sheet: &[u8], version: usize, out: &mut [u16]) -> Result<usize, Refusal> {
    asked(|value, column| c::handout_datatypes(sheet, version, out, value, column))
}

/// How long the plain text is, in bytes: the room that `plain_text` needs. It is not written for that, and 16 is no answer.
pub fn plain_text_length(sheet: &[u8]) -> Result<usize, Refusal> {
    asked(|value, column| c::plain_text_length(sheet, value, column))
}

/// How long the strict text is, in bytes.
pub fn strict_text_length(sheet: &[u8]) -> Result<usize, Refusal> {
    asked(|value, column| c::strict_text_length(sheet, value, column))
}

/// How long the atom list is, in numbers: two for each atom.
pub fn atom_list_length(sheet: &[u8]) -> Result<usize, Refusal> {
    asked(|value, column| c::atom_list_length(sheet, value, column))
}

/// How long the datatype list is, in numbers.
pub fn datatype_list_length(sheet: &[u8]) -> Result<usize, Refusal> {
    asked(|value, column| c::datatype_list_length(sheet, value, column))
}

/// How long the text of a version of the handout is, in bytes.
pub fn handout_length(sheet: &[u8], version: usize, style: Style) -> Result<usize, Refusal> {
    let of_style = match style {
        Style::Plain => c::handout_plain_length,
        Style::Strict => c::handout_strict_length,
    };
    asked(|value, column| of_style(sheet, version, value, column))
}

/// How long the datatype list of a version of the handout is, in numbers.
pub fn handout_datatypes_length(sheet: &[u8], version: usize) -> Result<usize, Refusal> {
    asked(|value, column| c::handout_datatypes_length(sheet, version, value, column))
}

/// How many ascriptions and labelled functions the sheet's term has.
pub fn label_count(sheet: &[u8]) -> Result<usize, Refusal> {
    asked(|value, column| c::label_count(sheet, value, column))
}

/// Whether the conclusions of steps `i` and `j` are equal up to the names of their bound objects.
pub fn compare(sheet: &[u8], i: usize, j: usize) -> Result<bool, Refusal> {
    asked(|value, column| c::compare(sheet, i, j, value, column)).map(|value| value == 1)
}

/// A hypothesis by numbers of the sheet: its name and its proposition.
#[derive(Clone, Copy, Debug, PartialEq, Eq)]
#[repr(C)]
pub struct Hypothesis {
    pub name: u16,
    pub proposition: u16,
}

/// Whether the checking rules derive a judgement. A no has the node of the term at which they stop: nodes are counted from 0, a node
/// before its parts, these from left to right.
#[derive(Clone, Copy, Debug, PartialEq, Eq)]
pub enum Judged {
    Yes,
    No { node: usize },
}

/// Whether the sheet's term checks against one of the sheet's propositions from the hypotheses given, a later one hiding earlier ones
/// of its name.
pub fn judge(
    sheet: &[u8],
    hypotheses: &[Hypothesis],
    proposition: usize,
) -> Result<Judged, Refusal> {
    let mut node = 0;
    let question = |value: &mut usize, column: &mut usize| {
        c::judge(sheet, hypotheses, proposition, value, column, &mut node)
    };
    Ok(match asked(question)? {
        1 => Judged::Yes,
        _ => Judged::No { node },
    })
}

/// What the board prints, at the start of `out`: the plain text of version 1, or the refusal's line; its length in bytes.
pub fn board_output(sheet: &[u8], out: &mut [u8; BOARD_ROOM]) -> usize {
    c::board_output(sheet, out)
}

/// A conclusion in the numbers of a step record, and a column: kind 0, a proposition, 0 and 0; or kind 1, a name, an id and a
/// datatype's name.
#[derive(Clone, Copy, Debug, PartialEq, Eq)]
pub struct Given {
    pub kind: u16,
    pub numbers: [u16; 3],
    pub column: u16,
}

impl Given {
    /// The numbers in the order of a step record.
    fn row(self) -> [u16; 5] {
        let [first, second, third] = self.numbers;
        [self.kind, first, second, third, self.column]
    }
}

/// The sheet with one more step, AlphaEquivalent over its root, at the start of `out`; its length in bytes. Every answer to it is the
/// old sheet's. The slots become the index of its names, and stay as they were where it is refused.
pub fn restate(
    sheet: &[u8],
    given: Given,
    slots: &mut [u16; 1024],
    out: &mut [u8],
) -> Result<usize, Refusal> {
    asked(|value, column| c::restate(sheet, &given.row(), slots, out, value, column))
}

/// How long the sheet with one more step is, in bytes; 16 is no answer.
pub fn restate_length(sheet: &[u8], given: Given) -> Result<usize, Refusal> {
    asked(|value, column| c::restate_length(sheet, &given.row(), value, column))
}

/// Whose sheet a refusal of a graft speaks of.
#[derive(Clone, Copy, Debug, PartialEq, Eq)]
pub enum Whose {
    Neither,
    Host,
    Donor,
}

/// A refusal of a graft. Where it is the host's or the donor's, its place and its column are those of that sheet.
#[derive(Clone, Copy, Debug, PartialEq, Eq)]
pub struct GraftRefusal {
    pub whose: Whose,
    pub refusal: Refusal,
}

impl fmt::Display for GraftRefusal {
    fn fmt(&self, f: &mut fmt::Formatter) -> fmt::Result {
        let of = match self.whose {
            Whose::Neither => "",
            Whose::Host => " of the host",
            Whose::Donor => " of the donor",
        };
        write!(f, "{}{of}", self.refusal)
    }
}

impl std::error::Error for GraftRefusal {}

/// The host with the donor's steps in the place of one of its own, a Sorry without premisses that concludes what the donor's root
/// does, at the start of `out`; its length in bytes, at most `LONGEST_SHEET`. The host's parts are kept byte for byte; the donor's
/// names that it has not, and all of the donor's propositions, follow its own. The slots become the index of the merged names, and
/// stay as they were where it is refused.
pub fn graft(
    host: &[u8],
    step: usize,
    donor: &[u8],
    slots: &mut [u16; SLOT_COUNT],
    out: &mut [u8],
) -> Result<usize, GraftRefusal> {
    let two = c::Two { host, step, donor };
    grafted(|value, column, whose| c::graft(two, slots, out, value, column, whose))
}

/// How long the merged sheet is, in bytes; 16 is no answer.
pub fn graft_length(host: &[u8], step: usize, donor: &[u8]) -> Result<usize, GraftRefusal> {
    let two = c::Two { host, step, donor };
    grafted(|value, column, whose| c::graft_length(two, value, column, whose))
}

/// What a C function handed over of a graft.
fn grafted(
    question: impl FnOnce(&mut usize, &mut usize, &mut usize) -> u8,
) -> Result<usize, GraftRefusal> {
    let mut whose = 0;
    let answer = asked(|value, column| question(value, column, &mut whose));
    answer.map_err(|refusal| GraftRefusal {
        whose: match whose {
            1 => Whose::Host,
            2 => Whose::Donor,
            _ => Whose::Neither,
        },
        refusal,
    })
}

/// The memory that is lent for a term: `include/skriduhol.h` says how a term stands in it.
pub struct TermMemory<'a> {
    /// `RECORD_NUMBERS` for each node, parts before the whole.
    pub records: &'a mut [u16],
    /// The offset and the length in the text of each different name, low byte first.
    pub names: &'a mut [u8],
    /// The propositions of the labels, each from an even offset on.
    pub code: &'a mut [u8],
}

/// How much of the lent memory a term takes: so many nodes and names, and bytes of code.
#[derive(Clone, Copy, Debug, PartialEq, Eq)]
pub struct ReadTerm {
    pub nodes: usize,
    pub names: usize,
    pub code: usize,
}

/// The term that a strict text has, at the start of each part of the memory. The datatypes are names divided by newlines, and no bytes
/// are no names: a label that is a lone name is a datatype if it is listed and otherwise an atom.
pub fn read_term(text: &[u8], datatypes: &[u8], memory: TermMemory) -> Result<ReadTerm, Refusal> {
    let mut counts = c::Counts::default();
    let question = |value: &mut usize, column: &mut usize| {
        c::read_term(text, datatypes, memory, value, column, &mut counts)
    };
    let nodes = asked(question)?;
    Ok(ReadTerm {
        nodes,
        names: counts.names,
        code: counts.code,
    })
}

/// How large that term is: the room that `read_term` needs is `RECORD_NUMBERS` numbers for each node, 4 bytes for each name, and the
/// bytes of code.
pub fn read_term_length(text: &[u8], datatypes: &[u8]) -> Result<ReadTerm, Refusal> {
    let mut counts = c::Counts::default();
    let question = |value: &mut usize, column: &mut usize| {
        c::read_term_length(text, datatypes, value, column, &mut counts)
    };
    let nodes = asked(question)?;
    Ok(ReadTerm {
        nodes,
        names: counts.names,
        code: counts.code,
    })
}

/// The code of the proposition at an ordinal, from 0, among all of at most `n` binary connectives over ⊤, ⊥ and up to 3 names, `n` up
/// to 3, at the start of `out`; its length in bytes. The names are divided by newlines, no bytes are no names, and in the code they
/// are numbered as given. `include/skriduhol.h` says their order.
pub fn exercise(names: &[u8], n: usize, ordinal: usize, out: &mut [u8]) -> Result<usize, Refusal> {
    asked(|value, column| c::exercise(names, n, ordinal, out, value, column))
}

/// How long the code of an exercise is, in bytes; 16 is no answer.
pub fn exercise_length(names: &[u8], n: usize, ordinal: usize) -> Result<usize, Refusal> {
    asked(|value, column| c::exercise_length(names, n, ordinal, value, column))
}

/// Fills the slots with the index of the sheet's names: a name's number, or `FREE`. Names enter from number 0 up, repeats of earlier
/// bytes not at all. `include/skriduhol.h` says where each enters.
pub fn name_index(sheet: &[u8], slots: &mut [u16; SLOT_COUNT]) -> Result<(), Refusal> {
    asked(|value, column| c::name_index(sheet, slots, value, column)).map(|_| ())
}

/// The number of a name by slots beside the sheet: by the sheet's own index the lowest of these bytes, if there is one. Only
/// refusals 1 to 3 are tried; other slots answer what they hold.
pub fn find_name(
    sheet: &[u8],
    slots: &[u16; SLOT_COUNT],
    name: &[u8],
) -> Result<Option<usize>, Refusal> {
    let number = asked(|value, column| c::find_name(sheet, slots, name, value, column))?;
    Ok((number != FREE as usize).then_some(number))
}

/// What a C function handed over: a value, or a refusal's number with its place as the value, and its column.
fn asked(question: impl FnOnce(&mut usize, &mut usize) -> u8) -> Result<usize, Refusal> {
    let (mut value, mut column) = (0, 0);
    match question(&mut value, &mut column) {
        0 => Ok(value),
        number => Err(Refusal {
            number,
            place: value,
            column,
        }),
    }
}
