//! Finds where the library, document 01 and the Rust do not say the same of a sheet.
use crate::{call::Library, questions::questions, tally::Tally};
use oracle::{
    answer::{examine, Answer, Examined, Operation, Question},
    rng::Rng,
    sheet::Refusal,
};
use std::fmt;

/// Two answers that should be one.
pub struct Difference {
    /// The operation, or none where document 01 and the Rust disagree.
    pub operation: Option<Operation>,
    what: String,
}

impl Difference {
    fn of_the_oracle(finding: String) -> Self {
        Difference { operation: None, what: format!("document 01 against the Rust: {finding}") }
    }
}

const SHOWN: usize = 4000;

impl fmt::Display for Difference {
    fn fmt(&self, f: &mut fmt::Formatter) -> fmt::Result {
        match self.what.char_indices().nth(SHOWN) {
            None => f.write_str(&self.what),
            Some((end, _)) => write!(f, "{} ..", &self.what[..end]),
        }
    }
}

fn shown(answer: &Result<Answer, Refusal>) -> String {
    match answer {
        Ok(Answer::Text(text)) => format!("accepted, {}: {text:?}", text.len()),
        Ok(Answer::List(list)) => format!("accepted, {}: {list:?}", list.len()),
        Ok(Answer::Code(code)) => format!("accepted, {}: {code:?}", code.len()),
        Ok(Answer::Count(count)) => format!("accepted, {count}"),
        Ok(Answer::Equal(equal)) => format!("accepted, {}", *equal as usize),
        Err(refusal) => refusal.to_string(),
    }
}

/// One who asks the library, and counts what was asked.
pub struct Asker<'a> {
    library: &'a Library,
    /// How many pairs of steps are compared on a sheet.
    comparisons: usize,
    rng: Rng,
    pub tally: Tally,
}

impl<'a> Asker<'a> {
    pub fn new(library: &'a Library, comparisons: usize, rng: Rng) -> Self {
        Asker { library, comparisons, rng, tally: Tally::default() }
    }

    /// Asks every question of every operation.
    pub fn ask(&mut self, sheet: &[u8]) -> Option<Difference> {
        self.tally.sheets += 1;
        match examine(sheet) {
            Err(finding) => Some(Difference::of_the_oracle(finding)),
            Ok(examined) => {
                Operation::ALL.into_iter().find_map(|operation| self.ask_operation(sheet, &examined, operation))
            }
        }
    }

    /// Asks what was different on another sheet once more of this one.
    pub fn ask_again(&mut self, sheet: &[u8], operation: Option<Operation>) -> Option<Difference> {
        match (examine(sheet), operation) {
            (Err(finding), None) => Some(Difference::of_the_oracle(finding)),
            (Err(_), Some(_)) => None,
            (Ok(examined), Some(operation)) => self.ask_operation(sheet, &examined, operation),
            (Ok(examined), None) => {
                let asked = questions(&examined, Operation::Comparison, self.comparisons, &mut self.rng);
                let finding = asked.into_iter().find_map(|(question, _)| examined.answer(question, None).err());
                finding.map(Difference::of_the_oracle)
            }
        }
    }

    fn ask_operation(&mut self, sheet: &[u8], examined: &Examined, operation: Operation) -> Option<Difference> {
        let asked = questions(examined, operation, self.comparisons, &mut self.rng);
        asked.into_iter().find_map(|(question, room)| {
            let expected = match examined.answer(question, Some(room)) {
                Ok(expected) => expected,
                Err(finding) => return Some(Difference::of_the_oracle(finding)),
            };
            self.tally.count(operation, &expected);
            let said = self.library.call(sheet, question, room, self.rng.draw() as u8);
            let how = said.differs(&expected)?;
            let asked = match question {
                Question::Comparison(i, j) => format!("{operation} of steps {i} and {j}"),
                Question::LabelCount | Question::BoardOutput => operation.to_string(),
                _ => format!("{operation} with a room of {room}"),
            };
            let what = format!("{asked}: {how}\n  expected {}\n  library  {said}", shown(&expected));
            Some(Difference { operation: Some(operation), what })
        })
    }
}
