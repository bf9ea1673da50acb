//! Asks how long each answer of every sheet is that fills memory.
use oracle::{
    answer::{examine, Question, VERSIONS},
    generate::{Kind, Sheets},
    sheet::Refusal,
};
use std::fmt;

pub type OfSheet =
    unsafe extern "C" fn(sheet: *const u8, sheet_length: usize, value: *mut usize, column: *mut usize) -> u8;
pub type OfVersion = unsafe extern "C" fn(
    sheet: *const u8,
    sheet_length: usize,
    version: usize,
    value: *mut usize,
    column: *mut usize,
) -> u8;

/// The functions of `skriduhol.h` on lengths.
#[derive(Clone, Copy)]
pub struct Library {
    pub plain_text: OfSheet,
    pub strict_text: OfSheet,
    pub atom_list: OfSheet,
    pub datatype_list: OfSheet,
    pub handout_plain: OfVersion,
    pub handout_strict: OfVersion,
    pub handout_datatypes: OfVersion,
}

/// How often a length was asked for, and what came out.
#[derive(Clone, Copy, Default, PartialEq, Eq, Debug)]
pub struct Asked {
    pub lengths: usize,
    pub refused: usize,
    pub longest: usize,
}

impl fmt::Display for Asked {
    fn fmt(&self, f: &mut fmt::Formatter) -> fmt::Result {
        let Asked { lengths, refused, longest } = self;
        write!(f, "lengths: {lengths}, {refused} of them refused, {longest} the longest")
    }
}

/// A value or column that no call can mean, to see that it is overwritten.
const UNSAID: usize = usize::MAX / 3;

/// What a call gave: the refusal's number or 0, the value and the column.
type Said = (u8, usize, usize);

fn expected(answer: Result<usize, Refusal>) -> Said {
    match answer {
        Ok(length) => (0, length, 0),
        Err(refusal) => (refusal.number, refusal.place, refusal.column.into()),
    }
}

/// Every answer that fills memory, those of the handout in versions that there are and in others.
fn questions() -> Vec<Question> {
    let own = [Question::PlainText, Question::StrictText, Question::AtomList, Question::DatatypeList];
    let of_versions = [Question::HandoutPlain, Question::HandoutStrict, Question::HandoutDatatypes];
    own.into_iter().chain(VERSIONS.into_iter().flat_map(|version| of_versions.map(|of| of(version)))).collect()
}

impl Library {
    fn call(&self, sheet: &[u8], question: Question) -> Said {
        let (mut value, mut column) = (UNSAID, UNSAID);
        let (start, length) = (sheet.as_ptr(), sheet.len());
        // SAFETY: the sheet, the value and the column outlive the calls.
        let number = unsafe {
            let own = |of: OfSheet, value: &mut usize, column: &mut usize| of(start, length, value, column);
            let versioned = |of: OfVersion, version, value: &mut usize, column: &mut usize| {
                of(start, length, version, value, column)
            };
            match question {
                Question::PlainText => own(self.plain_text, &mut value, &mut column),
                Question::StrictText => own(self.strict_text, &mut value, &mut column),
                Question::AtomList => own(self.atom_list, &mut value, &mut column),
                Question::DatatypeList => own(self.datatype_list, &mut value, &mut column),
                Question::HandoutPlain(version) => versioned(self.handout_plain, version, &mut value, &mut column),
                Question::HandoutStrict(version) => versioned(self.handout_strict, version, &mut value, &mut column),
                Question::HandoutDatatypes(version) => {
                    versioned(self.handout_datatypes, version, &mut value, &mut column)
                }
                Question::LabelCount | Question::Comparison(..) | Question::BoardOutput => {
                    unreachable!("it fills no memory that a caller measures")
                }
            }
        };
        (number, value, column)
    }

    /// Asks for the length of each answer of a sheet.
    fn ask(&self, sheet: &[u8], asked: &mut Asked) -> Result<(), String> {
        let examined = examine(sheet)?;
        for question in questions() {
            let right = examined.answer(question, None)?.map(|answer| answer.length());
            let said = self.call(sheet, question);
            if said != expected(right) {
                return Err(format!("the length of {question:?}: expected {:?}, library {said:?}", expected(right)));
            }
            asked.lengths += 1;
            asked.refused += right.is_err() as usize;
            asked.longest = asked.longest.max(right.unwrap_or(0));
        }
        Ok(())
    }
}

/// The kinds of sheets whose lengths are asked for: all but the slowest.
pub const KINDS: [Kind; 6] = [Kind::Limits, Kind::Worst, Kind::Sound, Kind::Random, Kind::Quantified, Kind::Damaged];

/// What was asked, or the first difference: sheets of these kinds, so many of the random ones.
pub fn compare(library: &Library, kinds: &[Kind], seed: u64, count: usize) -> Result<Asked, String> {
    let mut asked = Asked::default();
    for kind in kinds {
        for (what, sheet) in Sheets::new(*kind, seed, count).iter() {
            let shown = || sheet.iter().map(|byte| format!("{byte:02x}")).collect::<String>();
            library.ask(&sheet, &mut asked).map_err(|how| format!("{what}: {how}\n{}", shown()))?;
        }
    }
    Ok(asked)
}
