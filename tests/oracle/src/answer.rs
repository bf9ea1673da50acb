//! The answers to a sheet's questions, each taken from the Rust where the Rust has it and checked against document
//! 01's own walk. The texts and lists of versions 2 and 3 are document 02's alone. Where the two disagree, that is a
//! `Finding`.
use crate::{
    reference,
    sheet::{decode, refuse, Refusal, Sheet, BOARD_ROOM},
    text::{self, Version},
    walk::{self, Export, Place},
};
use std::fmt;

pub type Finding = String;

#[derive(Clone, Copy, PartialEq, Eq, Debug)]
pub enum Question {
    PlainText,
    StrictText,
    AtomList,
    DatatypeList,
    LabelCount,
    Comparison(usize, usize),
    BoardOutput,
    /// Of a version, by its number.
    HandoutPlain(usize),
    HandoutStrict(usize),
    HandoutDatatypes(usize),
}

/// The three versions, and numbers that are none, among them such as have the low bytes of one.
pub const VERSIONS: [usize; 9] = [1, 2, 3, 0, 4, 257, 65537, (1 << 32) + 1, usize::MAX];

/// The operation that a question asks for, in the order in which the list numbers them.
#[derive(Clone, Copy, PartialEq, Eq, Debug)]
pub enum Operation {
    PlainText,
    StrictText,
    AtomList,
    DatatypeList,
    LabelCount,
    Comparison,
    BoardOutput,
    HandoutPlain,
    HandoutStrict,
    HandoutDatatypes,
}

impl Operation {
    pub const ALL: [Operation; 10] = [
        Operation::PlainText,
        Operation::StrictText,
        Operation::AtomList,
        Operation::DatatypeList,
        Operation::LabelCount,
        Operation::Comparison,
        Operation::BoardOutput,
        Operation::HandoutPlain,
        Operation::HandoutStrict,
        Operation::HandoutDatatypes,
    ];
}

impl fmt::Display for Operation {
    fn fmt(&self, f: &mut fmt::Formatter) -> fmt::Result {
        f.pad(match self {
            Operation::PlainText => "plain text",
            Operation::StrictText => "strict text",
            Operation::AtomList => "atom list",
            Operation::DatatypeList => "datatype list",
            Operation::LabelCount => "label count",
            Operation::Comparison => "comparison",
            Operation::BoardOutput => "board output",
            Operation::HandoutPlain => "plain handout",
            Operation::HandoutStrict => "strict handout",
            Operation::HandoutDatatypes => "its datatypes",
        })
    }
}

impl Question {
    pub fn operation(self) -> Operation {
        match self {
            Question::PlainText => Operation::PlainText,
            Question::StrictText => Operation::StrictText,
            Question::AtomList => Operation::AtomList,
            Question::DatatypeList => Operation::DatatypeList,
            Question::LabelCount => Operation::LabelCount,
            Question::Comparison(..) => Operation::Comparison,
            Question::BoardOutput => Operation::BoardOutput,
            Question::HandoutPlain(_) => Operation::HandoutPlain,
            Question::HandoutStrict(_) => Operation::HandoutStrict,
            Question::HandoutDatatypes(_) => Operation::HandoutDatatypes,
        }
    }

    /// The version that a question asks for: 1 where it names none.
    fn version(self) -> usize {
        match self {
            Question::HandoutPlain(version) | Question::HandoutStrict(version) => version,
            Question::HandoutDatatypes(version) => version,
            _ => 1,
        }
    }
}

#[derive(Clone, PartialEq, Eq, Debug)]
pub enum Answer {
    Text(String),
    List(Vec<u16>),
    Count(usize),
    Equal(bool),
    /// The code of a proposition.
    Code(Vec<u8>),
}

impl Answer {
    /// The room that the answer fills: bytes of a text or a code, numbers of a list.
    pub fn length(&self) -> usize {
        match self {
            Answer::Text(text) => text.len(),
            Answer::List(list) => list.len(),
            Answer::Code(code) => code.len(),
            Answer::Count(_) | Answer::Equal(_) => 0,
        }
    }
}

/// A sheet with all that export says of it.
#[derive(Debug)]
pub struct Examined {
    /// The sheet, if 1 to 11 accept it.
    pub sheet: Result<Sheet, Refusal>,
    /// Its term, if 1 to 15 accept it.
    pub exported: Result<Exported, Refusal>,
}

#[derive(Debug)]
pub struct Exported {
    pub export: Export,
    pub plain: String,
    pub strict: String,
    /// What stands before the term in each version. The Rust has the first only.
    headings: [String; 3],
}

impl Exported {
    pub fn plain(&self, version: Version) -> String {
        self.headed(version, &self.plain)
    }

    pub fn strict(&self, version: Version) -> String {
        self.headed(version, &self.strict)
    }

    /// Does version 3 put declarations of version 2 into another order?
    pub fn sorts(&self) -> bool {
        self.headings[Version::Third as usize] != self.headings[Version::Second as usize]
    }

    /// A text of version 1 with the heading of another: the term is the same in each.
    fn headed(&self, version: Version, first: &str) -> String {
        self.headings[version as usize].clone() + &first[self.headings[Version::First as usize].len()..]
    }
}

fn ensure(holds: bool, what: impl Fn() -> String) -> Result<(), Finding> {
    if holds {
        Ok(())
    } else {
        Err(what())
    }
}

/// Export by the document and by the Rust, compared in every part.
pub fn examine(bytes: &[u8]) -> Result<Examined, Finding> {
    match decode(bytes) {
        Ok(sheet) => exported(&sheet).map(|exported| Examined { sheet: Ok(sheet), exported }),
        Err(refusal) => Ok(Examined { sheet: Err(refusal), exported: Err(refusal) }),
    }
}

fn exported(sheet: &Sheet) -> Result<Result<Exported, Refusal>, Finding> {
    let (tree, goal) = (sheet.tree(sheet.root()), sheet.prop(&sheet.props[sheet.goal]));
    let (export, proof) = match (walk::export(sheet), reference::export(&tree)) {
        (Ok(export), Ok(proof)) => (export, proof),
        (Err(refusal), Err(number)) if refusal.number == number => {
            let located = reference::locate(sheet, sheet.root(), Place::Checking);
            ensure(located == Some(refusal), || format!("document {refusal}, Rust stops by {located:?}"))?;
            return Ok(Err(refusal));
        }
        (ours, theirs) => {
            let (ours, theirs) = (ours.err(), theirs.err());
            return Err(format!("document refuses {ours:?}, Rust panics {theirs:?}"));
        }
    };
    ensure(proof.proof_term == export.term, || "the terms differ".into())?;
    let named = |(n, count): &(u16, u16)| (sheet.name(*n), *count as usize);
    ensure(proof.atoms.iter().cloned().eq(export.atoms.iter().map(named)), || "the atom lists differ".into())?;
    let datatypes = export.datatypes.iter().map(|n| sheet.name(*n));
    ensure(proof.datatypes.iter().cloned().eq(datatypes), || "the datatype lists differ".into())?;
    let count = proof.proof_term.annotation_count();
    ensure(count == export.labels, || format!("annotation_count {count}, labels {}", export.labels))?;
    let plain = reference::text(&tree, &goal).map_err(|n| format!("the wrapper panics {n}"))?;
    ensure(plain == text::text(sheet, &export, Version::First, text::plain), || "the plain texts differ".into())?;
    let strict = text::text(sheet, &export, Version::First, text::strict);
    ensure(strict.len() == plain.len() + 2 * export.strict_brackets, || "the strict text has other brackets".into())?;
    let headings = [Version::First, Version::Second, Version::Third]
        .map(|version| text::declared(sheet, &export, version).heading(version));
    Ok(Ok(Exported { export, plain, strict, headings }))
}

/// Comparison by the document and by the Rust.
fn compared(sheet: &Sheet, i: usize, j: usize) -> Result<Result<bool, Refusal>, Finding> {
    let ours = walk::compare(sheet, i, j);
    if ours != refuse(17, 0) {
        let theirs = reference::compare(sheet, i, j);
        let agree = theirs == ours.map_err(|r| r.number);
        ensure(agree, || format!("comparison of {i} and {j}: document {ours:?}, Rust {theirs:?}"))?;
    }
    Ok(ours)
}

impl Examined {
    /// The answer to a question, given `room` for it; without a room there is enough.
    pub fn answer(&self, question: Question, room: Option<usize>) -> Result<Result<Answer, Refusal>, Finding> {
        let Some(version) = Version::numbered(question.version()) else {
            return Ok(refuse(21, 0));
        };
        let exported = self.exported.as_ref().map_err(|refusal| *refusal);
        let answer = match question {
            Question::PlainText | Question::HandoutPlain(_) => exported.map(|e| Answer::Text(e.plain(version))),
            Question::StrictText | Question::HandoutStrict(_) => exported.map(|e| Answer::Text(e.strict(version))),
            Question::AtomList => {
                exported.map(|e| Answer::List(e.export.atoms.iter().flat_map(|(n, count)| [*n, *count]).collect()))
            }
            Question::DatatypeList | Question::HandoutDatatypes(_) => {
                exported.map(|e| Answer::List(version.datatypes(&e.export).to_vec()))
            }
            Question::LabelCount => exported.map(|e| Answer::Count(e.export.labels)),
            Question::Comparison(i, j) => match &self.sheet {
                Ok(sheet) => compared(sheet, i, j)?.map(Answer::Equal),
                Err(refusal) => Err(*refusal),
            },
            Question::BoardOutput => {
                let text = self.answer(Question::PlainText, Some(BOARD_ROOM))?;
                Ok(text.unwrap_or_else(|refusal| Answer::Text(format!("{refusal}\n"))))
            }
        };
        Ok(match (answer, room) {
            (Ok(answer), Some(room)) if answer.length() > room => refuse(16, 0),
            (answer, _) => answer,
        })
    }
}
